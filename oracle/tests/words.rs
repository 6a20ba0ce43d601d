//! The comparison itself: words written by hand from docs/ABI.md stand, and
//! no word of them can be changed without being found. The names that
//! include/nmea.h has for their places lead to them.

use std::error::Error;

use oracle::{
    answer_of, crate_answer, expected, judge,
    lines::{exhaustive_parts, worked_lines, Batch, Generator},
    row_read, with_checksum, words_of, Answer, Cell, Domain, Exact, Gathered, Ours, OursAnswer,
    Refusal, Row, System, Words, ABSENT, CELLS, DONE, ROW, ROWS, ROW_WORDS, TABLE, UNDONE,
};

const RMC: &str = "$GNRMC,101500.25,A,5130.5,N,00006.0,W,4.5,270.0,290224,,,A*5F";
const WEST: &str = "$GPRMC,,A,,,,,,,,0,W*41";
const GSA: &str = "$GPGSA,A,3,,,,,,16,18,,22,24,,,3.6,2.1,2.2*3C";
const NO_FIX: &str = "$GPGSA,A,1,,,,*32";
const GSV: &str = "$GPGSV,3,3,11,22,42,067,42,24,14,311,43,27,05,244,00,,,,*4D";

/// What comes of our words for a line.
fn verdict(line: &[u8], words: &Words) -> Result<Domain, String> {
    judge(line, &answer_of(words)?, &crate_answer(line))
}

/// The first words of an answer; the others are 0.
fn words(first: &[u64]) -> Words {
    let mut words = [0; 40];
    words[..first.len()].copy_from_slice(first);
    words
}

fn letter(letter: char) -> u64 {
    letter.into()
}

fn f32_bits(float: f32) -> u64 {
    float.to_bits().into()
}

/// Holds the words to be the line's answer, and no others to be.
fn only(line: impl AsRef<[u8]>, first: &[u64], domain: Domain) {
    let line = line.as_ref();
    let right = words(first);
    assert_eq!(right, words_of(&expected(line)), "{}", line.escape_ascii());
    assert_eq!(verdict(line, &right), Ok(domain), "{}", line.escape_ascii());
    for index in 0..right.len() {
        let word = right[index];
        let others = [
            0,
            1,
            word + 1,
            word ^ 1,
            word ^ 1 << 31,
            word ^ 1 << 63,
            !word,
        ];
        for other in others.into_iter().filter(|&other| other != word) {
            let mut wrong = right;
            wrong[index] = other;
            assert!(
                verdict(line, &wrong).is_err(),
                "{} with word {index} as {other}",
                line.escape_ascii()
            );
        }
    }
}

#[test]
fn rmc() {
    let latitude = 51. + 30.5 / 60.;
    let longitude: f64 = -(6. / 60.);
    let first: [&[u64]; 9] = [
        &[1, letter('G'), letter('N')],
        &[1, 10, 15, 0, 250_000_000, letter('A')],
        &[1, 0, 3_090_500_000_000, letter('N'), f64::to_bits(latitude)],
        &[1, 6_000_000_000, letter('W'), longitude.to_bits()],
        &[1, 0, 45, 1, f32_bits(4.5)],
        &[1, 0, 2700, 1, f32_bits(270.)],
        &[1, 2024, 2, 29],
        &[0, 0, 0, 0, 0],
        &[letter('A'), 0],
    ];
    only(RMC, &first.concat(), Domain::Inside);
}

#[test]
fn minus_zero_is_a_float_only() {
    let mut first = words(&[1, letter('G'), letter('P')]);
    first[8] = letter('A');
    first[32..37].copy_from_slice(&[1, 0, 0, 0, f32_bits(-0.)]);
    only(WEST, &first, Domain::Inside);
}

#[test]
fn signs_of_rmc() {
    // Minutes count against the degrees, and W turns the sign.
    let latitude: f64 = -(30.5 / 60.);
    let longitude: f64 = -(1. - 0.25 / 60.);
    let first: [&[u64]; 8] = [
        &[1, letter('G'), letter('N')],
        &[0, 0, 0, 0, 0, letter('A')],
        &[1, 1, 30_500_000_000, letter('N'), latitude.to_bits()],
        &[1, 59_750_000_000, letter('W'), longitude.to_bits()],
        &[1, 0, 0, 1, f32_bits(-0.)],
        &[1, 1, 2700, 1, f32_bits(-270.)],
        &[0, 0, 0, 0],
        &[1, 0, 203, 1, f32_bits(20.3)],
    ];
    let line = with_checksum("GNRMC,,A,00-30.5,N,001-0.25,W,-0.0,-270.0,,-20.3,W");
    only(line, &first.concat(), Domain::Inside);
}

#[test]
fn minutes_of_minus_zero_are_no_sign() {
    let first: [&[u64]; 4] = [
        &[1, letter('G'), letter('N')],
        &[0, 0, 0, 0, 0, letter('A')],
        &[1, 0, 0, letter('N'), f64::to_bits(0.)],
        &[0, 0, letter('W'), f64::to_bits(-0.)],
    ];
    let line = with_checksum("GNRMC,,A,00-0,N,000-0,W,,,,,");
    only(line, &first.concat(), Domain::Inside);
}

#[test]
fn signs_of_gsa() {
    let first: [&[u64]; 4] = [
        &[2, letter('G'), letter('P'), letter('A'), letter('1'), 1],
        &[1, 1, 1, 0, f32_bits(-1.)],
        &[0, 0, 0, f32_bits(0.)],
        &[0, 0, 0, f32_bits(0.)],
    ];
    only("$GPGSA,A,1,-1,0,0*02", &first.concat(), Domain::Inside);
    let first = [5, 8, 2, 1, 2];
    only("$GPGSA,A,1,-1,0,0,2*1C", &first, Domain::Inside);
}

#[test]
fn gsa() {
    let first: [&[u64]; 5] = [
        &[2, letter('G'), letter('P'), letter('A'), letter('3'), 1],
        &[1, 0, 36, 1, f32_bits(3.6)],
        &[0, 21, 1, f32_bits(2.1)],
        &[0, 22, 1, f32_bits(2.2)],
        &[4, 16, 18, 22, 24],
    ];
    only(GSA, &first.concat(), Domain::Inside);
    let first = [2, letter('G'), letter('P'), letter('A'), letter('1'), 1];
    only(NO_FIX, &first, Domain::Inside);
}

#[test]
fn gsv() {
    let first: [&[u64]; 4] = [
        &[3, letter('G'), letter('P'), 1, 3, 3, 11],
        &[1, 22, 1, 42, 1, 67, 1, 42],
        &[1, 24, 1, 14, 1, 311, 1, 43],
        &[1, 27, 1, 5, 1, 244, 1, 0],
    ];
    only(GSV, &first.concat(), Domain::Inside);
}

#[test]
fn gga() {
    let latitude: f64 = 51. + 30.5 / 60.;
    let longitude: f64 = -(6. / 60.);
    let first: [&[u64]; 8] = [
        &[6, letter('G'), letter('N')],
        &[1, 10, 15, 0, 250_000_000],
        &[1, 0, 3_090_500_000_000, letter('N'), latitude.to_bits()],
        &[1, 6_000_000_000, letter('W'), longitude.to_bits()],
        &[letter('2'), 1, 7],
        &[1, 0, 125, 2, f32_bits(1.25)],
        &[1, 1, 35, 1, f32_bits(-3.5)],
        &[1, 0, 470, 1, f32_bits(47.)],
    ];
    let line = with_checksum("GNGGA,101500.25,5130.5,N,00006.0,W,2,07,1.25,-3.5,M,47.0,M,,");
    only(line, &first.concat(), Domain::Inside);
    // Nothing but the fix, and each decimal by itself.
    let bare = |at: usize, part: &[u64]| {
        let mut first = words(&[6, letter('G'), letter('P')]);
        first[17] = letter('0');
        first[at..at + part.len()].copy_from_slice(part);
        first
    };
    let minus_zero = [1, 0, 0, 0, f32_bits(-0.)];
    for (body, first) in [
        ("GPGGA,,,,,,0,,,,,,", bare(0, &[6])),
        (
            "GPGGA,,,,,,0,4294967295,,,,,",
            bare(18, &[1, 4_294_967_295]),
        ),
        ("GPGGA,,,,,,0,0,,,,,", bare(18, &[1, 0])),
        ("GPGGA,,,,,,0,,-0,,,,", bare(20, &minus_zero)),
        ("GPGGA,,,,,,0,,,-0,,,", bare(25, &minus_zero)),
        ("GPGGA,,,,,,0,,,,,-0,", bare(30, &minus_zero)),
    ] {
        only(with_checksum(body), &first, Domain::Inside);
    }
}

#[test]
fn gll() {
    let latitude: f64 = 51. + 30.5 / 60.;
    let longitude: f64 = -(6. / 60.);
    let first: [&[u64]; 5] = [
        &[7, letter('G'), letter('N')],
        &[1, 0, 3_090_500_000_000, letter('N'), latitude.to_bits()],
        &[1, 6_000_000_000, letter('W'), longitude.to_bits()],
        &[1, 10, 15, 0, 250_000_000],
        &[letter('A'), letter('D')],
    ];
    let line = with_checksum("GNGLL,5130.5,N,00006.0,W,101500.25,A,D");
    only(line, &first.concat(), Domain::Inside);
    let mut first = words(&[7, letter('G'), letter('P')]);
    first[17] = letter('V');
    only(with_checksum("GPGLL,,,,,,V,"), &first, Domain::Inside);
}

#[test]
fn vtg() {
    let head = [8, letter('G'), letter('P')];
    let none = [0; 5];
    let course = [1, 0, 547, 1, f32_bits(54.7)];
    let knots = f32_bits(5.5);
    let speed = [1, letter('N'), 0, 55, 1, knots, knots];
    let line = with_checksum("GPVTG,054.7,T,034.4,M,005.5,N,010.2,K");
    let first = [&head[..], &course, &speed].concat();
    only(line, &first, Domain::Inside);
    // The same in km/h, behind the N and in its place.
    let speed = [1, letter('K'), 0, 55, 1, knots, f32_bits(5.5 / 1.852)];
    let first = [&head[..], &none, &speed].concat();
    for body in ["GPVTG,,,,,,N5.5,", "GPVTG,,,,,,05.5,K"] {
        only(with_checksum(body), &first, Domain::Inside);
    }
    let speed = [1, letter('K'), 0, 0, 0, f32_bits(-0.), f32_bits(-0.)];
    let first = [&head[..], &none, &speed].concat();
    only(with_checksum("GPVTG,,,,,,N-0,"), &first, Domain::Inside);
    let speed = [1, letter('N'), 1, 1, 0, f32_bits(-1.), f32_bits(-1.)];
    let first = [&head[..], &none, &speed].concat();
    only(with_checksum("GPVTG,,,,,-1,N7,"), &first, Domain::Inside);
    // Nothing, as the usual km/h are not read.
    only(with_checksum("GPVTG,,,,,,N,1,K"), &head, Domain::Inside);
}

#[test]
fn other() {
    let [g, p, t, x] = ['G', 'P', 'T', 'X'].map(letter);
    let first = [4, g, p, t, x, t];
    only("$GPTXT,i*0A", &first, Domain::Inside);
}

#[test]
fn refusals() {
    only([0xC3, 0x28], &[5, 1], Domain::Inside);
    only([0xC3, 0xA9], &[5, 2], Domain::Inside);
    only([b'x'; 103], &[5, 3, 1, 103], Domain::Inside);
    only("", &[5, 4], Domain::Inside);
    only("$GNHDG,*6E", &[5, 5], Domain::Outside);
    only("$GPGSA,A,1,,,,*33", &[5, 6, 2, 50, 51], Domain::Inside);
    only(
        "$GNGSV,*67",
        &[5, 7, 2, letter('G'), letter('N')],
        Domain::Inside,
    );
    only("$GPGSA,A,1,,,,2*00", &[5, 8, 2, 1, 2], Domain::Inside);
    only("$GNRMC,,A,,,,,+1,,,,*22", &[5, 9], Domain::Outside);
    only("$GPVTG,,,1e5,,,,*1F", &[5, 9], Domain::Outside);
}

#[test]
fn number_is_answered_exactly_where_a_wrong_decimal_is_reached() {
    let number = words(&[5, 9]);
    let syntax = words(&[5, 4]);
    let due = [
        // The crate accepts the decimal, or has a parsing error there.
        "GNRMC,,A,,,,,1e1,,,,",
        "GNRMC,,A,,,,,fast,,,,",
        // Number stands before a sign and the ranges, and before what follows.
        "GNRMC,0000-1e1,A,,,,,,,,,",
        "GNRMC,99991x,A,,,,,,,,,",
        "GNRMC,,A,,,,,1x",
        // Also where the crate drops it, and where the N was looked for.
        "GPVTG,,,1x,,,,",
        "GPVTG,,,,,1,N1x,",
        "GPVTG,,,,,,K,",
        "GPGGA,,,,,,1,,,1x,F,,",
        "GPGLL,,,,,00001x,B",
    ];
    for body in due {
        let line = with_checksum(body);
        let line = line.as_bytes();
        assert_eq!(verdict(line, &number), Ok(Domain::Outside), "{body}");
        assert!(verdict(line, &syntax).is_err(), "{body}");
    }
    let not_due = [
        // Signed seconds, and a status, stand before the speed.
        "GNRMC,0000-0,A,,,,,1x,,,,",
        "GNRMC,0000-99,A,,,,,1x,,,,",
        "GNRMC,,X,,,,,1x,,,,",
        // A whole PDOP is an item, however long.
        "GNGSA,A,1,12345678,1.0,1",
        // A fix, a count and a unit stand before a decimal.
        "GPGGA,,,,,,9,,1x,,,,",
        "GPGGA,,,,,,1,4294967296,1x,,,,",
        "GPGGA,,,,,,1,,,,F,1x,",
        "GPVTG,,E,1x,,,,",
    ];
    for body in not_due {
        let line = with_checksum(body);
        let line = line.as_bytes();
        assert_eq!(verdict(line, &syntax), Ok(Domain::Inside), "{body}");
        assert!(verdict(line, &number).is_err(), "{body}");
    }
}

#[test]
fn words_that_are_written_are_read_as_the_answer() {
    let mut lines: Batch = worked_lines()
        .into_iter()
        .chain(Generator::new(5).take(50_000))
        .collect();
    for part in exhaustive_parts() {
        part.fill(0..5_000, &mut lines);
    }
    for line in lines.lines() {
        let answer = expected(line);
        let read = answer_of(&words_of(&answer));
        assert_eq!(read, Ok(answer), "{}", line.escape_ascii());
    }
}

#[test]
fn refusals_that_are_written_are_read() {
    let refusals = [
        Refusal::BadUtf8,
        Refusal::NotAscii,
        Refusal::TooLong(103),
        Refusal::Syntax,
        Refusal::UnknownType,
        Refusal::Checksum {
            calculated: 50,
            found: 51,
        },
        Refusal::UnknownTalker(*b"GN"),
        Refusal::SystemMismatch {
            talker: System::Gps,
            tail: System::Beidou,
        },
        Refusal::Number,
        // No line leads to the last two: the first is for readers of one type,
        // and the limits of the seconds leave no room for the second.
        Refusal::WrongHeader {
            expected: *b"RMC",
            found: *b"GSA",
        },
        Refusal::BadTime,
    ];
    for (refusal, number) in refusals.into_iter().zip(1..) {
        let answer = OursAnswer {
            answer: Answer::Refused(refusal),
            exact: Exact::default(),
        };
        let words = words_of(&answer);
        assert_eq!(words[..2], [5, number]);
        assert_eq!(answer_of(&words), Ok(answer));
    }
}

/// A row of BeiDou with two satellites, of which the second has its number alone.
fn row_words() -> Vec<u64> {
    let head: [&[u64]; 3] = [
        &[4, 3, 2, 11, 2],
        &[1, 22, 1, 42, 1, 67, 1, 0],
        &[1, 4_294_967_295, 0, 0, 0, 0, 0, 0],
    ];
    let mut words = head.concat();
    words.resize(ROW_WORDS, 0);
    words
}

#[test]
fn a_row() {
    let cell = |satellite, places: [Option<u32>; 3]| Cell {
        satellite,
        elevation: places[0],
        azimuth: places[1],
        signal: places[2],
    };
    let row = Row {
        sentences: 3,
        waits_for: 2,
        in_view: 11,
        cells: vec![
            cell(22, [Some(42), Some(67), Some(0)]),
            cell(u32::MAX, [None; 3]),
        ],
    };
    assert_eq!(row_read(&row_words()), Ok((System::Beidou, row.clone())));

    // The same row in a table, and back.
    let mut words = [9; ROW];
    row.put(&mut words);
    assert_eq!(words[..4], [3, 2, 11, 2]);
    assert_eq!(words[4..8], [22, 42, 67, 0]);
    assert_eq!(words[8..13], [u32::MAX, ABSENT, ABSENT, ABSENT, 9]);
    assert_eq!(Row::of(&words), Some(row));
    words[3] = 37;
    assert_eq!(Row::of(&words), None);
}

/// No word of a row can be changed without being found.
#[test]
fn only_its_words_are_a_row() {
    let right = row_words();
    let row = row_read(&right);
    for index in 0..ROW_WORDS {
        for other in [0, 1, 2, 36, 37, 1 << 31, 0xFFFF_FFFF, 1 << 32, u64::MAX] {
            let mut wrong = right.clone();
            wrong[index] = other;
            assert_eq!(
                row_read(&wrong) == row,
                other == right[index],
                "word {index} as {other}"
            );
        }
    }
}

#[test]
fn sizes_of_tables() {
    assert_eq!((ROWS, ROW, TABLE), (6, 148, 888));
    assert_eq!((CELLS, ROW_WORDS, ABSENT), (36, 293, 4_294_967_295));
}

#[test]
fn what_a_line_did() {
    let did: Vec<Option<Gathered>> = (0..10).map(Gathered::of).collect();
    let mut expected = vec![
        Some(Gathered::NoGsv),
        Some(Gathered::NoRun),
        Some(Gathered::Waits),
    ];
    expected.extend(System::ALL.map(|system| Some(Gathered::Group(system))));
    expected.push(None);
    assert_eq!(did, expected);
    assert_eq!(Gathered::of(255), None);
}

/// The number of a constant of include/nmea.h, by its name without `NMEA_`; of
/// several and of numbers their sum.
fn of_header(sum: &str) -> usize {
    let constant = |name: &str| -> usize {
        let define = format!("#define NMEA_{name} ");
        let number = include_str!("../../include/nmea.h")
            .lines()
            .find_map(|line| line.strip_prefix(&define))
            .unwrap_or_else(|| panic!("no NMEA_{name}"));
        number.trim_end_matches('u').parse().expect("a number")
    };
    let summands = sum.split(" + ");
    summands
        .map(|summand| summand.parse().unwrap_or_else(|_| constant(summand)))
        .sum()
}

/// What the oracle goes by is what a caller in C does.
#[test]
fn constants_of_the_header() {
    for (name, number) in [
        ("WORDS", words(&[]).len()),
        ("ROWS", ROWS),
        ("ROW", ROW),
        ("TABLE", TABLE),
        ("CELLS", CELLS),
        ("ROW_WORDS", ROW_WORDS),
        ("ABSENT", ABSENT as usize),
        ("DONE", DONE as usize),
        ("UNDONE", UNDONE as usize),
    ] {
        assert_eq!(of_header(name), number, "{name}");
    }
    for (name, did) in [
        ("UNDONE", None),
        ("NO_GSV", Some(Gathered::NoGsv)),
        ("NO_RUN", Some(Gathered::NoRun)),
        ("WAITS", Some(Gathered::Waits)),
        ("GROUP", Some(Gathered::Group(System::Gps))),
    ] {
        assert_eq!(Gathered::of(of_header(name) as u32), did, "{name}");
    }
    for (name, system) in [
        ("GPS", System::Gps),
        ("GLONASS", System::Glonass),
        ("GALILEO", System::Galileo),
        ("BEIDOU", System::Beidou),
        ("QZSS", System::Qzss),
        ("NAVIC", System::NavIc),
    ] {
        assert_eq!(of_header(name), system.number().into(), "{name}");
    }
}

/// Holds the words at places that the header names to what they must be; at no
/// other place is there anything but 0.
fn at_places(words: &[u64], places: &[(&str, u64)]) {
    let mut others = words.to_vec();
    for &(place, expected) in places {
        let at = of_header(place);
        assert_eq!(words[at], expected, "{place}");
        others[at] = 0;
    }
    assert!(others.iter().all(|&word| word == 0), "{others:?}");
}

/// The same of our answer to a sentence.
fn answered(body: &str, places: &[(&str, u64)]) -> Result<(), Box<dyn Error>> {
    let lines: Batch = [with_checksum(body)].into_iter().collect();
    let answers = Ours::find()?.answers(&lines)?;
    at_places(&answers[0], places);
    Ok(())
}

#[test]
fn rmc_by_the_names_of_the_header() -> Result<(), Box<dyn Error>> {
    answered(
        "GNRMC,101500.25,A,5130.5,N,00006.0,W,4.5,270.0,290224,20.3,W,D,V",
        &[
            ("KIND", of_header("RMC") as u64),
            ("TALKER", letter('G')),
            ("TALKER + 1", letter('N')),
            ("RMC_TIME", 1),
            ("RMC_TIME + TIME_HOUR", 10),
            ("RMC_TIME + TIME_MINUTE", 15),
            ("RMC_TIME + TIME_SECOND", 0),
            ("RMC_TIME + TIME_NANOSECOND", 250_000_000),
            ("RMC_STATUS", letter('A')),
            ("RMC_POSITION", 1),
            ("RMC_LATITUDE + COORDINATE_SIGN", 0),
            ("RMC_LATITUDE + COORDINATE_SIZE", 3_090_500_000_000),
            ("RMC_LATITUDE + COORDINATE_LETTER", letter('N')),
            (
                "RMC_LATITUDE + COORDINATE_DEGREES",
                f64::to_bits(51. + 30.5 / 60.),
            ),
            ("RMC_LONGITUDE + COORDINATE_SIGN", 1),
            ("RMC_LONGITUDE + COORDINATE_SIZE", 6_000_000_000),
            ("RMC_LONGITUDE + COORDINATE_LETTER", letter('W')),
            ("RMC_LONGITUDE + COORDINATE_DEGREES", f64::to_bits(-0.1)),
            ("RMC_SPEED", 1),
            ("RMC_SPEED + DECIMAL_SIGN", 0),
            ("RMC_SPEED + DECIMAL_SIZE", 45),
            ("RMC_SPEED + DECIMAL_DECIMALS", 1),
            ("RMC_SPEED + DECIMAL_VALUE", f32_bits(4.5)),
            ("RMC_COURSE", 1),
            ("RMC_COURSE + DECIMAL_SIGN", 0),
            ("RMC_COURSE + DECIMAL_SIZE", 2700),
            ("RMC_COURSE + DECIMAL_DECIMALS", 1),
            ("RMC_COURSE + DECIMAL_VALUE", f32_bits(270.)),
            ("RMC_DATE", 1),
            ("RMC_DATE + DATE_YEAR", 2024),
            ("RMC_DATE + DATE_MONTH", 2),
            ("RMC_DATE + DATE_DAY", 29),
            ("RMC_VARIATION", 1),
            ("RMC_VARIATION + DECIMAL_SIGN", 1),
            ("RMC_VARIATION + DECIMAL_SIZE", 203),
            ("RMC_VARIATION + DECIMAL_DECIMALS", 1),
            ("RMC_VARIATION + DECIMAL_VALUE", f32_bits(-20.3)),
            ("RMC_MODE", letter('D')),
            ("RMC_NAVIGATION", letter('V')),
        ],
    )
}

#[test]
fn gsa_by_the_names_of_the_header() -> Result<(), Box<dyn Error>> {
    answered(
        "GLGSA,A,3,,,,,,16,18,,,,,,3.65,21,2.2",
        &[
            ("KIND", of_header("GSA") as u64),
            ("TALKER", letter('G')),
            ("TALKER + 1", letter('L')),
            ("GSA_MODE", letter('A')),
            ("GSA_FIX", letter('3')),
            ("GSA_SYSTEM", of_header("GLONASS") as u64),
            ("GSA_DOPS", 1),
            ("GSA_PDOP + DOP_SIGN", 0),
            ("GSA_PDOP + DOP_SIZE", 365),
            ("GSA_PDOP + DOP_DECIMALS", 2),
            ("GSA_PDOP + DOP_VALUE", f32_bits(3.65)),
            ("GSA_HDOP + DOP_SIGN", 0),
            ("GSA_HDOP + DOP_SIZE", 21),
            ("GSA_HDOP + DOP_DECIMALS", 0),
            ("GSA_HDOP + DOP_VALUE", f32_bits(21.)),
            ("GSA_VDOP + DOP_SIGN", 0),
            ("GSA_VDOP + DOP_SIZE", 22),
            ("GSA_VDOP + DOP_DECIMALS", 1),
            ("GSA_VDOP + DOP_VALUE", f32_bits(2.2)),
            ("GSA_COUNT", 2),
            ("GSA_SATELLITES", 16),
            ("GSA_SATELLITES + 1", 18),
        ],
    )
}

#[test]
fn gsv_by_the_names_of_the_header() -> Result<(), Box<dyn Error>> {
    // Behind the four entries stands one word that is 0.
    let entries = of_header("ENTRIES") * of_header("ENTRY_WORDS");
    assert_eq!(of_header("GSV_ENTRIES + 1") + entries, of_header("WORDS"));
    answered(
        "QZGSV,3,2,11,193,42,067,39,194,,311,",
        &[
            ("KIND", of_header("GSV") as u64),
            ("TALKER", letter('Q')),
            ("TALKER + 1", letter('Z')),
            ("GSV_SYSTEM", of_header("QZSS") as u64),
            ("GSV_SENTENCES", 3),
            ("GSV_NUMBER", 2),
            ("GSV_VIEW", 11),
            ("GSV_ENTRIES", 1),
            ("GSV_ENTRIES + ENTRY_SATELLITE", 193),
            ("GSV_ENTRIES + ENTRY_ELEVATION", 1),
            ("GSV_ENTRIES + ENTRY_ELEVATION + OPTION_NUMBER", 42),
            ("GSV_ENTRIES + ENTRY_AZIMUTH", 1),
            ("GSV_ENTRIES + ENTRY_AZIMUTH + OPTION_NUMBER", 67),
            ("GSV_ENTRIES + ENTRY_SIGNAL", 1),
            ("GSV_ENTRIES + ENTRY_SIGNAL + OPTION_NUMBER", 39),
            ("GSV_ENTRIES + ENTRY_WORDS", 1),
            ("GSV_ENTRIES + ENTRY_WORDS + ENTRY_SATELLITE", 194),
            ("GSV_ENTRIES + ENTRY_WORDS + ENTRY_AZIMUTH", 1),
            (
                "GSV_ENTRIES + ENTRY_WORDS + ENTRY_AZIMUTH + OPTION_NUMBER",
                311,
            ),
        ],
    )
}

#[test]
fn gga_by_the_names_of_the_header() -> Result<(), Box<dyn Error>> {
    answered(
        "GNGGA,101500.25,5130.5,N,00006.0,W,5,07,1.25,-3.5,M,47.0,M,,",
        &[
            ("KIND", of_header("GGA") as u64),
            ("TALKER", letter('G')),
            ("TALKER + 1", letter('N')),
            ("GGA_TIME", 1),
            ("GGA_TIME + TIME_HOUR", 10),
            ("GGA_TIME + TIME_MINUTE", 15),
            ("GGA_TIME + TIME_SECOND", 0),
            ("GGA_TIME + TIME_NANOSECOND", 250_000_000),
            ("GGA_POSITION", 1),
            ("GGA_LATITUDE + COORDINATE_SIGN", 0),
            ("GGA_LATITUDE + COORDINATE_SIZE", 3_090_500_000_000),
            ("GGA_LATITUDE + COORDINATE_LETTER", letter('N')),
            (
                "GGA_LATITUDE + COORDINATE_DEGREES",
                f64::to_bits(51. + 30.5 / 60.),
            ),
            ("GGA_LONGITUDE + COORDINATE_SIGN", 1),
            ("GGA_LONGITUDE + COORDINATE_SIZE", 6_000_000_000),
            ("GGA_LONGITUDE + COORDINATE_LETTER", letter('W')),
            ("GGA_LONGITUDE + COORDINATE_DEGREES", f64::to_bits(-0.1)),
            ("GGA_FIX", letter('5')),
            ("GGA_SATELLITES", 1),
            ("GGA_SATELLITES + OPTION_NUMBER", 7),
            ("GGA_HDOP", 1),
            ("GGA_HDOP + DECIMAL_SIGN", 0),
            ("GGA_HDOP + DECIMAL_SIZE", 125),
            ("GGA_HDOP + DECIMAL_DECIMALS", 2),
            ("GGA_HDOP + DECIMAL_VALUE", f32_bits(1.25)),
            ("GGA_ALTITUDE", 1),
            ("GGA_ALTITUDE + DECIMAL_SIGN", 1),
            ("GGA_ALTITUDE + DECIMAL_SIZE", 35),
            ("GGA_ALTITUDE + DECIMAL_DECIMALS", 1),
            ("GGA_ALTITUDE + DECIMAL_VALUE", f32_bits(-3.5)),
            ("GGA_GEOID", 1),
            ("GGA_GEOID + DECIMAL_SIGN", 0),
            ("GGA_GEOID + DECIMAL_SIZE", 470),
            ("GGA_GEOID + DECIMAL_DECIMALS", 1),
            ("GGA_GEOID + DECIMAL_VALUE", f32_bits(47.)),
        ],
    )
}

#[test]
fn gll_by_the_names_of_the_header() -> Result<(), Box<dyn Error>> {
    answered(
        "GNGLL,5130.5,N,00006.0,W,101500.25,V,N",
        &[
            ("KIND", of_header("GLL") as u64),
            ("TALKER", letter('G')),
            ("TALKER + 1", letter('N')),
            ("GLL_POSITION", 1),
            ("GLL_LATITUDE + COORDINATE_SIGN", 0),
            ("GLL_LATITUDE + COORDINATE_SIZE", 3_090_500_000_000),
            ("GLL_LATITUDE + COORDINATE_LETTER", letter('N')),
            (
                "GLL_LATITUDE + COORDINATE_DEGREES",
                f64::to_bits(51. + 30.5 / 60.),
            ),
            ("GLL_LONGITUDE + COORDINATE_SIGN", 1),
            ("GLL_LONGITUDE + COORDINATE_SIZE", 6_000_000_000),
            ("GLL_LONGITUDE + COORDINATE_LETTER", letter('W')),
            ("GLL_LONGITUDE + COORDINATE_DEGREES", f64::to_bits(-0.1)),
            ("GLL_TIME", 1),
            ("GLL_TIME + TIME_HOUR", 10),
            ("GLL_TIME + TIME_MINUTE", 15),
            ("GLL_TIME + TIME_SECOND", 0),
            ("GLL_TIME + TIME_NANOSECOND", 250_000_000),
            ("GLL_STATUS", letter('V')),
            ("GLL_MODE", letter('N')),
        ],
    )
}

#[test]
fn vtg_by_the_names_of_the_header() -> Result<(), Box<dyn Error>> {
    for (body, unit, knots) in [
        ("GPVTG,270.5,T,,M,-7.5,N,,K,A", 'N', -7.5),
        ("GPVTG,270.5,T,,M,,N-7.5,K", 'K', -7.5 / 1.852),
    ] {
        answered(
            body,
            &[
                ("KIND", of_header("VTG") as u64),
                ("TALKER", letter('G')),
                ("TALKER + 1", letter('P')),
                ("VTG_COURSE", 1),
                ("VTG_COURSE + DECIMAL_SIGN", 0),
                ("VTG_COURSE + DECIMAL_SIZE", 2705),
                ("VTG_COURSE + DECIMAL_DECIMALS", 1),
                ("VTG_COURSE + DECIMAL_VALUE", f32_bits(270.5)),
                ("VTG_SPEED", 1),
                ("VTG_SPEED + SPEED_UNIT", letter(unit)),
                ("VTG_SPEED + SPEED_SIGN", 1),
                ("VTG_SPEED + SPEED_SIZE", 75),
                ("VTG_SPEED + SPEED_DECIMALS", 1),
                ("VTG_SPEED + SPEED_VALUE", f32_bits(-7.5)),
                ("VTG_SPEED + SPEED_KNOTS", f32_bits(knots)),
            ],
        )?;
    }
    Ok(())
}

#[test]
fn others_and_refusals_by_the_names_of_the_header() -> Result<(), Box<dyn Error>> {
    answered(
        "GPTXT,i",
        &[
            ("KIND", of_header("OTHER") as u64),
            ("TALKER", letter('G')),
            ("TALKER + 1", letter('P')),
            ("OTHER_TYPE", letter('T')),
            ("OTHER_TYPE + 1", letter('X')),
            ("OTHER_TYPE + 2", letter('T')),
        ],
    )?;
    // Talker and tail name two systems.
    answered(
        "GBGSA,A,1,,,,3",
        &[
            ("KIND", of_header("REFUSED") as u64),
            ("REFUSED_NUMBER", 8),
            ("REFUSED_COUNT", 2),
            ("REFUSED_VALUES", of_header("BEIDOU") as u64),
            ("REFUSED_VALUES + 1", of_header("GALILEO") as u64),
        ],
    )
}

/// Holds words to be the row of [`row_words`], as it is read and in a table.
fn is_the_row(read: &[u64], in_table: &[u32]) {
    at_places(
        read,
        &[
            ("ROW_SYSTEM", of_header("BEIDOU") as u64),
            ("ROW_SENTENCES", 3),
            ("ROW_WAITS_FOR", 2),
            ("ROW_VIEW", 11),
            ("ROW_COUNT", 2),
            ("ROW_ENTRIES", 1),
            ("ROW_ENTRIES + ENTRY_SATELLITE", 22),
            ("ROW_ENTRIES + ENTRY_ELEVATION", 1),
            ("ROW_ENTRIES + ENTRY_ELEVATION + OPTION_NUMBER", 42),
            ("ROW_ENTRIES + ENTRY_AZIMUTH", 1),
            ("ROW_ENTRIES + ENTRY_AZIMUTH + OPTION_NUMBER", 67),
            ("ROW_ENTRIES + ENTRY_SIGNAL", 1),
            ("ROW_ENTRIES + ENTRY_SIGNAL + OPTION_NUMBER", 0),
            ("ROW_ENTRIES + ENTRY_WORDS", 1),
            ("ROW_ENTRIES + ENTRY_WORDS + ENTRY_SATELLITE", 4_294_967_295),
        ],
    );
    let in_table: Vec<u64> = in_table.iter().copied().map(u64::from).collect();
    let absent = of_header("ABSENT") as u64;
    at_places(
        &in_table,
        &[
            ("RUN_SENTENCES", 3),
            ("RUN_WAITS_FOR", 2),
            ("RUN_VIEW", 11),
            ("RUN_COUNT", 2),
            ("RUN_CELLS + CELL_SATELLITE", 22),
            ("RUN_CELLS + CELL_ELEVATION", 42),
            ("RUN_CELLS + CELL_AZIMUTH", 67),
            ("RUN_CELLS + CELL_SIGNAL", 0),
            ("RUN_CELLS + CELL_WORDS + CELL_SATELLITE", 4_294_967_295),
            ("RUN_CELLS + CELL_WORDS + CELL_ELEVATION", absent),
            ("RUN_CELLS + CELL_WORDS + CELL_AZIMUTH", absent),
            ("RUN_CELLS + CELL_WORDS + CELL_SIGNAL", absent),
        ],
    );
}

#[test]
fn a_row_by_the_names_of_the_header() {
    let mut in_table = [0; ROW];
    let (_, row) = row_read(&row_words()).expect("the words of a row");
    row.put(&mut in_table);
    is_the_row(&row_words(), &in_table);
}

/// The same of what our side writes, and a log's totals.
#[test]
#[cfg(target_arch = "x86_64")]
fn calls_by_the_names_of_the_header() {
    use proved_nmea::abi;

    let is = |answer: u32, name: &str| assert_eq!(answer as usize, of_header(name));
    let mut table = [7; TABLE];
    is(abi::fresh(&mut table), "DONE");
    let first = with_checksum("BDGSV,3,1,11,22,42,067,00,4294967295,,,");
    let taken = abi::gather(first.as_bytes(), &mut words(&[]), &mut table);
    is(taken, "WAITS");
    let row = of_header("BEIDOU") - 1;
    let mut read = [7; ROW_WORDS];
    is(abi::row(&table, row, &mut read), "DONE");
    is_the_row(&read, &table[row * ROW..][..ROW]);

    let group = with_checksum("GPGSV,1,1,00,");
    let log = format!("{first}\n{group}\n\n\n{group}\nx\n\n{first}\n{first}\n");
    let mut totals = vec![7; of_header("TOTALS")];
    is(abi::walk(log.as_bytes(), &mut totals), "DONE");
    at_places(
        &totals,
        &[
            ("TOTALS_LINES", 9),
            ("TOTALS_BLANK", 3),
            ("TOTALS_ACCEPTED", 5),
            ("TOTALS_REFUSED", 1),
            ("TOTALS_GROUPS", 2),
        ],
    );
}
