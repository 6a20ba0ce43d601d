//! include/nmea.h compiles as C, and declares what the crate `capi_c` exports.

mod repository;

use std::{collections::BTreeMap, fs, path::Path, process::Command};

use repository::{read, root};

/// What the C compiler says of a source that may include nmea.h, if it does
/// not take it.
fn refused_by_cc(source: &Path) -> Option<String> {
    let output = Command::new("cc")
        .args(["-std=c99", "-Wall", "-Wextra", "-Werror", "-fsyntax-only"])
        .arg("-I")
        .arg(root().join("include"))
        .arg(source)
        .output()
        .unwrap_or_else(|error| {
            panic!("needs `cc`, a C compiler, which cargo links with too: {error}")
        });
    (!output.status.success()).then(|| String::from_utf8_lossy(&output.stderr).into_owned())
}

#[test]
fn the_header_compiles() {
    if let Some(why) = refused_by_cc(&root().join("tests/header.c")) {
        panic!("include/nmea.h or tests/header.c does not compile:\n{why}");
    }
}

#[test]
fn a_wrong_type_does_not_compile() {
    let right = read("tests/header.c");
    for (type_there, another) in [
        ("uint64_t words[", "uint32_t words["),
        ("uint32_t table[", "uint64_t table["),
        ("uint64_t row_words[", "uint32_t row_words["),
    ] {
        let wrong = right.replace(type_there, another);
        assert_ne!(wrong, right);
        let source = Path::new(env!("CARGO_TARGET_TMPDIR")).join("wrong.c");
        fs::write(&source, wrong).expect("a file for the compiler");
        assert!(refused_by_cc(&source).is_some(), "{another}");
    }
}

/// The functions that the header declares.
fn declared() -> Vec<String> {
    let header = read("include/nmea.h");
    let names = header
        .lines()
        .filter_map(|line| line.strip_prefix("uint32_t "))
        .filter_map(|line| line.split('(').next());
    names.map(str::to_owned).collect()
}

/// The constants that the header defines.
fn defined() -> BTreeMap<String, u64> {
    let header = read("include/nmea.h");
    let words = header
        .lines()
        .filter_map(|line| line.strip_prefix("#define "))
        .filter_map(|line| line.split_once(' '));
    words
        .map(|(name, value)| {
            let value = value.trim_end_matches('u').parse();
            (name.to_owned(), value.expect("a number"))
        })
        .collect()
}

const RECORD: &str = "crates/words/src/record.rt";
const GSV: &str = "crates/words/src/gsv_words.rt";
const ROW: &str = "crates/gather/src/lent.rt";

/// Constants that the code has too: the source, how their names in the header
/// begin, and the rest of each, with the code's own name behind `=` where that
/// is another.
const IN_CODE: [(&str, &str, &str); 20] = [
    ("crates/capi/src/lib.rt", "NMEA_", "DONE UNDONE"),
    ("crates/words/src/lib.rt", "NMEA_", "WORDS"),
    (
        RECORD,
        "NMEA_",
        "KIND TALKER=FIRST RMC GSA GSV OTHER REFUSED GGA GLL VTG",
    ),
    (RECORD, "NMEA_REFUSED_", "NUMBER=FIRST COUNT=SECOND"),
    (
        "crates/words/src/rmc_words.rt",
        "NMEA_RMC_",
        "TIME STATUS POSITION SPEED COURSE DATE VARIATION MODE NAVIGATION",
    ),
    (
        "crates/words/src/gsa_words.rt",
        "NMEA_GSA_",
        "MODE FIX SYSTEM DOPS COUNT",
    ),
    (GSV, "NMEA_GSV_", "SYSTEM SENTENCES NUMBER VIEW ENTRIES"),
    (
        GSV,
        "NMEA_ENTRY_",
        "WORDS=ENTRY_WORDS SATELLITE ELEVATION AZIMUTH SIGNAL",
    ),
    (
        "crates/words/src/gga_words.rt",
        "NMEA_GGA_",
        "TIME POSITION FIX SATELLITES HDOP ALTITUDE GEOID",
    ),
    (
        "crates/words/src/gll_words.rt",
        "NMEA_GLL_",
        "POSITION TIME STATUS MODE",
    ),
    ("crates/words/src/vtg_words.rt", "NMEA_VTG_", "COURSE SPEED"),
    ("crates/words/src/other.rt", "NMEA_OTHER_", "TYPE"),
    ("crates/words/src/refused.rt", "NMEA_REFUSED_", "VALUES"),
    ("crates/capi/src/totals.rt", "NMEA_", "TOTALS"),
    (
        "crates/capi/src/totals.rt",
        "NMEA_TOTALS_",
        "LINES BLANK ACCEPTED REFUSED GROUPS",
    ),
    ("crates/gather/src/table.rt", "NMEA_", "TABLE=WORDS ROWS"),
    (ROW, "NMEA_", "ROW CELLS CELL_WORDS=CELL ENTRIES ABSENT"),
    (
        ROW,
        "NMEA_RUN_",
        "SENTENCES=N WAITS_FOR=NEXT VIEW COUNT CELLS=HEAD",
    ),
    (
        "crates/capi/src/lend.rt",
        "NMEA_",
        "NO_GSV NO_RUN WAITS GROUP ROW_WORDS",
    ),
    (
        "crates/capi/src/lend.rt",
        "NMEA_ROW_",
        "SYSTEM SENTENCES WAITS_FOR VIEW COUNT ENTRIES",
    ),
];

const PARTS: &str = "crates/words/specs/Part.antt";

/// A part that may be absent: a word that is 1, and its own words.
const PRESENT: &str = "present n words (some x) = 1 ∷ words x";

/// Places that the code has no name for: a definition of one line or more, in
/// which the words of a part stand in their order; how their names in the
/// header begin; the place that they are counted from, if that has a name; and
/// the rest of each name, `-` for a word without one.
const IN_DEFINITIONS: [(&str, &str, &str, &str, &str); 14] = [
    (
        PARTS,
        "clock_words t = t.hour ∷ t.minute ∷ t.second ∷ t.nanosecond ∷ []
time_words t = present 4 clock_words t",
        "NMEA_TIME_",
        "",
        "- HOUR MINUTE SECOND NANOSECOND",
    ),
    (
        PARTS,
        "day_words d = d.year ∷ d.month ∷ d.day ∷ []
date_words d = present 3 day_words d",
        "NMEA_DATE_",
        "",
        "- YEAR MONTH DAY",
    ),
    (
        PARTS,
        "signed_words z = sign z ∷ nat_abs z ∷ []",
        "NMEA_COORDINATE_",
        "",
        "SIGN SIZE",
    ),
    (
        PARTS,
        "coordinate_words p = signed_words p.count ++ (p.letter ∷ bits64 p.degrees ∷ [])",
        "NMEA_COORDINATE_",
        "",
        "SIGN SIZE LETTER DEGREES",
    ),
    (PARTS, POSITION, "NMEA_RMC_", "POSITION", COORDINATES),
    (PARTS, POSITION, "NMEA_GGA_", "POSITION", COORDINATES),
    (PARTS, POSITION, "NMEA_GLL_", "POSITION", COORDINATES),
    (
        PARTS,
        "dop_words d = signed_words d.whole ++ (d.decimals ∷ bits32 d.value ∷ [])",
        "NMEA_DOP_",
        "",
        "SIGN SIZE DECIMALS VALUE",
    ),
    (
        PARTS,
        "short_words d = present 4 dop_words d",
        "NMEA_DECIMAL_",
        "",
        "- SIGN SIZE DECIMALS VALUE",
    ),
    (
        "crates/words/specs/Vtg.antt",
        "unit_words s = s.unit ∷ (dop_words s.written ++ (bits32 s.knots ∷ []))
speed_words s = present 6 unit_words s",
        "NMEA_SPEED_",
        "",
        "- UNIT SIGN SIZE DECIMALS VALUE KNOTS",
    ),
    (
        PARTS,
        "three_words d = dop_words d.pdop ++ (dop_words d.hdop ++ dop_words d.vdop)
dops_words d = present 12 three_words d",
        "NMEA_GSA_",
        "DOPS",
        "- PDOP - - - HDOP - - - VDOP - - -",
    ),
    (
        "crates/words/specs/Gsa.antt",
        "cell_words satellites = length satellites ∷ padded kept satellites",
        "NMEA_GSA_",
        "COUNT",
        "- SATELLITES",
    ),
    (
        PARTS,
        "number_words n = n ∷ []
option_words n = present 1 number_words n",
        "NMEA_OPTION_",
        "",
        "- NUMBER",
    ),
    (
        "crates/gather/specs/Words.antt",
        "cell_words s = s.id ∷ word_of s.elevation ∷ word_of s.azimuth ∷ word_of s.signal ∷ []",
        "NMEA_CELL_",
        "",
        "SATELLITE ELEVATION AZIMUTH SIGNAL",
    ),
];

/// A position, wherever it stands.
const POSITION: &str = "both_words p = coordinate_words p.lat ++ coordinate_words p.lon
position_words p = present 8 both_words p";
const COORDINATES: &str = "- LATITUDE - - - LONGITUDE - - -";

/// Whether a file has each line of a definition.
fn defines(file: &str, definition: &str) -> bool {
    let source = read(file);
    definition
        .lines()
        .all(|line| source.lines().any(|there| there == line))
}

/// A constant of a source: a number, or a sum of products of constants.
fn constant(file: &str, name: &str) -> u64 {
    let (start, source) = (format!("const {name}: "), read(file));
    let value = source
        .lines()
        .find_map(|line| Some(line.split_once(&start)?.1.split_once(" = ")?.1))
        .unwrap_or_else(|| panic!("{file}: no constant {name}"));
    let factor = |factor: &str| match (factor.parse(), factor.strip_prefix("lent::")) {
        (Ok(number), _) => number,
        (_, Some(name)) => constant(ROW, name),
        (_, None) if factor == "ENTRY_WORDS" && file != GSV => constant(GSV, factor),
        (_, None) => constant(file, factor),
    };
    let summands = value.trim_end_matches(';').split(" + ");
    summands
        .map(|summand| summand.split(" * ").map(factor).product::<u64>())
        .sum()
}

/// The systems' numbers, by their names in the header.
fn systems() -> Vec<(String, u64)> {
    let definitions = read("crates/gsv/specs/Talker.antt");
    let numbers = definitions
        .lines()
        .filter_map(|line| line.strip_prefix("system_number ")?.split_once(" = "));
    numbers
        .map(|(system, number)| {
            let name = format!("NMEA_{}", system.to_uppercase());
            (name, number.parse().expect("a number"))
        })
        .collect()
}

/// Each constant of the header is the code's, or the definition's where the
/// code has no name for it, and none is left out.
#[test]
fn every_constant_is_held() {
    let mut held = BTreeMap::from_iter(systems());
    for (file, start, names) in IN_CODE {
        for name in names.split(' ') {
            let (name, code) = name.split_once('=').unwrap_or((name, name));
            held.insert(format!("{start}{name}"), constant(file, code));
        }
    }
    assert!(defines(PARTS, PRESENT), "{PARTS}: expected {PRESENT}");
    for (file, definition, start, from, names) in IN_DEFINITIONS {
        assert!(defines(file, definition), "{file}: expected {definition}");
        let from = held.get(&format!("{start}{from}")).copied().unwrap_or(0);
        for (place, name) in (from..).zip(names.split(' ')) {
            if name != "-" {
                held.insert(format!("{start}{name}"), place);
            }
        }
    }
    assert_eq!(defined(), held, "include/nmea.h");
}

/// What calls answer: the header alone says it.
const ANSWERS: [&str; 6] = [
    "NMEA_DONE",
    "NMEA_UNDONE",
    "NMEA_NO_GSV",
    "NMEA_NO_RUN",
    "NMEA_WAITS",
    "NMEA_GROUP",
];

/// Each other constant stands on a page once, in a table behind its number.
#[test]
fn every_constant_is_on_a_page() {
    let pages = [read("docs/ABI.md"), read("docs/LISTS.md")].concat();
    let mut told = vec![];
    for row in pages.lines().filter(|line| line.contains("| `NMEA_")) {
        let mut cells = row.split('|').map(str::trim).skip(1);
        let (number, name) = (cells.next(), cells.next());
        let first = number.and_then(|number| number.split([' ', ',']).next());
        let number = first.and_then(|number| number.parse::<u64>().ok());
        let name = name.map(|name| name.trim_matches('`').to_owned());
        told.push(name.zip(number).unwrap_or_else(|| panic!("{row}")));
    }
    told.sort();
    let mut places = defined();
    places.retain(|name, _| !ANSWERS.contains(&name.as_str()));
    assert_eq!(told, Vec::from_iter(places), "docs/ABI.md, docs/LISTS.md");
}

#[test]
fn every_exported_function_is_declared_and_called() {
    let mut exported = vec![];
    for file in fs::read_dir(root().join("crates/capi_c/src")).expect("crates/capi_c/src") {
        let source = fs::read_to_string(file.expect("a file").path()).expect("a source");
        for rest in source.split("pub extern \"C\" fn ").skip(1) {
            let name = rest.split('(').next().unwrap_or_default();
            exported.push(name.to_owned());
        }
    }
    assert!(
        !exported.is_empty(),
        "no exported function in crates/capi_c/src"
    );
    for name in exported.into_iter().chain(declared()) {
        for (file, expected) in [
            ("include/nmea.h", format!("{name}(")),
            ("tests/header.c", format!("{name}(")),
            ("docs/ABI.md", format!("`{name}`")),
        ] {
            assert!(
                read(file).contains(&expected),
                "{file}: expected the exported function, {expected}"
            );
        }
    }
}
