//! Where Number is owed is decided from the text alone, in `owed`. Here it is
//! decided once more and in another way: the crate says how far it can read.

use nmea::{
    sentences::{parse_gga, parse_gll, parse_gsa, parse_rmc, parse_vtg},
    NmeaSentence, SentenceType,
};
use oracle::{
    crate_answer, is_plain,
    lines::{exhaustive_parts, worked_lines, Batch, Generator},
    owed, with_checksum, Answer, Limits, Refusal, KNOWN_TYPES,
};

/// A place of a decimal.
struct Place {
    field: usize,
    /// How many bytes of the field stand before the decimal; an N that may stand
    /// there is not counted.
    behind: usize,
    limits: Limits,
    /// A plain decimal, and a shortest end of the sentence.
    end: &'static str,
}

const fn place(field: usize, behind: usize, limits: Limits, end: &'static str) -> Place {
    Place {
        field,
        behind,
        limits,
        end,
    }
}

/// The places of RMC. A decimal that is reached stands in its field, as the
/// numbers before it hold no comma, and an absent position has its own four.
const RMC: [Place; 6] = [
    place(0, 4, Limits::Long, "0,A,,,,,,,,,"),
    place(2, 2, Limits::Long, "0,N,0000,E,,,,,"),
    place(4, 3, Limits::Long, "0,E,,,,,"),
    place(6, 0, Limits::Short, ",,,,"),
    place(7, 0, Limits::Short, ",,,"),
    place(9, 0, Limits::Short, "0,E"),
];

/// The places of GSA, from PDOP on. A whole PDOP would be an item.
const GSA: [Place; 3] = [
    place(0, 0, Limits::Short, "1.0,1,1"),
    place(1, 0, Limits::Short, "1,1"),
    place(2, 0, Limits::Short, "1"),
];

const GGA: [Place; 6] = [
    place(0, 4, Limits::Long, "0,,,,,1,,,,,,"),
    place(1, 2, Limits::Long, "0,N,0000,E,1,,,,,,"),
    place(3, 3, Limits::Long, "0,E,1,,,,,,"),
    place(7, 0, Limits::Short, ",,,,"),
    place(8, 0, Limits::Short, ",,,"),
    place(10, 0, Limits::Short, ","),
];

const GLL: [Place; 3] = [
    place(0, 2, Limits::Long, "0,N,0000,E,,A,"),
    place(2, 3, Limits::Long, "0,E,,A,"),
    place(4, 4, Limits::Long, "0,A,"),
];

/// The places of VTG. The last is that of km/h.
const VTG: [Place; 4] = [
    place(0, 0, Limits::Short, ",,,,,,"),
    place(2, 0, Limits::Short, ",,,,"),
    place(4, 0, Limits::Short, ",,"),
    place(5, 0, Limits::Short, ","),
];

/// The text for which Number is owed, by the crate: it reads the sentence up
/// to the first text that is no plain decimal, with a plain one there and a
/// shortest end behind it. If it accepts that, nothing before the text is wrong.
fn wrong_decimal(line: &[u8]) -> Option<&str> {
    // These come from framing; a right frame and no record is Syntax.
    match crate_answer(line) {
        Answer::Rmc(_) | Answer::Gsa(_) | Answer::Gga(_) | Answer::Gll(_) | Answer::Vtg(_) => {}
        Answer::Refused(Refusal::Syntax | Refusal::SystemMismatch { .. }) => {}
        _ => return None,
    }
    let line = std::str::from_utf8(line).ok()?;
    let (data, _) = line.get(7..)?.split_once('*')?;
    let name = &line[3..6];
    // The crate's frame, tried by a type that it does not read.
    let other = format!("{}TXT,{data}{}", &line[..3], &line[7 + data.len()..]);
    if !line.starts_with('$') || !line[6..].starts_with(',') || !is_framed(&other, name) {
        return None;
    }
    let fields: Vec<&str> = data.split(',').collect();
    let (places, first) = match name {
        "RMC" => (&RMC[..], 0),
        "GSA" => (&GSA[..], pdop(&fields)?),
        "GGA" => (&GGA[..], 0),
        "GLL" => (&GLL[..], 0),
        "VTG" => (&VTG[..], 0),
        _ => return None,
    };
    let field = |index: usize| match fields.get(index) {
        Some(text) if name == "VTG" && index == 5 => text.strip_prefix('N').unwrap_or(text),
        text => text.copied().unwrap_or_default(),
    };
    let text = |place: &Place| field(first + place.field).get(place.behind..);
    let wrong = places.iter().find(|place| {
        text(place).is_some_and(|text| !text.is_empty() && !is_plain(text, place.limits))
    })?;

    let index = first + wrong.field;
    let before: String = fields[..index]
        .iter()
        .map(|text| format!("{text},"))
        .collect();
    let number = within_ranges(&field(index)[..wrong.behind]);
    let plain = before + number + wrong.end;
    text(wrong).filter(|_| reads_data(name, &plain))
}

/// Whether the crate frames the line, where its checksum is that of a line
/// with the other type.
fn is_framed(line: &str, name: &str) -> bool {
    let xor = |text: &str| text.bytes().fold(0, |sum, byte| sum ^ byte);
    match crate_answer(line.as_bytes()) {
        Answer::Other(_) => xor(name) == xor("TXT"),
        Answer::Refused(Refusal::Checksum { calculated, found }) => {
            calculated ^ xor("TXT") ^ xor(name) == found
        }
        _ => false,
    }
}

/// Where PDOP stands: behind the items. None if there are no DOPs.
fn pdop(fields: &[&str]) -> Option<usize> {
    let is_number = |text: &str, most: u64| {
        text.bytes().all(|byte| byte.is_ascii_digit())
            && text.parse::<u64>().is_ok_and(|number| number <= most)
    };
    let (last, commas) = fields.get(2..)?.split_last()?;
    let is_empty_tail = !commas.is_empty()
        && commas.iter().all(|text| text.is_empty())
        && (last.is_empty() || is_number(last, u8::MAX.into()));
    if is_empty_tail {
        return None;
    }
    let items = commas
        .iter()
        .take_while(|text| text.is_empty() || is_number(text, u32::MAX.into()));
    Some(2 + items.count())
}

/// What stands before a decimal, where hour and minute are any two numbers:
/// Number comes before their ranges.
fn within_ranges(number: &str) -> &str {
    let is_number = |text: &str| text.parse::<u8>().is_ok();
    if number.len() == 4 && is_number(&number[..2]) && is_number(&number[2..]) {
        "0000"
    } else {
        number
    }
}

/// Whether the crate's reader of one type accepts data, of any length.
fn reads_data(name: &str, data: &str) -> bool {
    // This talker names no system that could be at odds with the data's.
    let sentence = |message_id| NmeaSentence {
        talker_id: "GN",
        message_id,
        data,
        checksum: 0,
    };
    match name {
        "RMC" => parse_rmc(sentence(SentenceType::RMC)).is_ok(),
        "GGA" => parse_gga(sentence(SentenceType::GGA)).is_ok(),
        "GLL" => parse_gll(sentence(SentenceType::GLL)).is_ok(),
        "VTG" => parse_vtg(sentence(SentenceType::VTG)).is_ok(),
        _ => parse_gsa(sentence(SentenceType::GSA)).is_ok(),
    }
}

/// Holds the two ways against each other. How often Number is owed.
fn numbers<'a>(lines: impl Iterator<Item = &'a [u8]>) -> usize {
    let mut count = 0;
    for line in lines {
        let is_owed = owed(line) == Some(Refusal::Number);
        let wrong = wrong_decimal(line);
        assert_eq!(is_owed, wrong.is_some(), "{}", line.escape_ascii());
        count += usize::from(is_owed);
    }
    count
}

#[test]
fn worked_and_generated_lines() {
    let lines: Batch = worked_lines()
        .into_iter()
        .chain(Generator::new(3).take(300_000))
        .collect();
    assert!(numbers(lines.lines()) > 10_000);
}

#[test]
fn samples_of_every_list() {
    let mut count = 0;
    for part in exhaustive_parts() {
        let mut lines = Batch::default();
        part.fill(0..part.count.min(50_000), &mut lines);
        count += numbers(lines.lines());
    }
    assert!(count > 10_000, "{count}");
}

#[test]
fn an_unknown_type_is_owed_before_what_follows() {
    for line in ["$GPXYZ", "$GPXYZ,*00", "$GPrmc,,A,,,,,1x", "$*****"] {
        assert_eq!(owed(line.as_bytes()), Some(Refusal::UnknownType), "{line}");
    }
    let long = format!("$GPXYZ{}", "x".repeat(97));
    for line in ["", "$GPXY", "GPXYZ,", "$GPXYZ\u{e9}", &long] {
        assert_eq!(owed(line.as_bytes()), None, "{line}");
    }
    for name in KNOWN_TYPES {
        assert_eq!(owed(with_checksum(&format!("GP{name},")).as_bytes()), None);
    }
}
