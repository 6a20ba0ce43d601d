//! Runs docs/DIFFERENCES.md: the tests read its tables and hold every row
//! against the crate, so a row that is not true fails here.

mod describe;
mod document;

use describe::{describe, describe_refusal};
use document::{all_rows, listed_types, section, Row, TYPES};
use nmea::SentenceType;
use oracle::{
    answer_of, crate_answer, crate_gga, crate_gll, crate_gsa, crate_gsv, crate_rmc, crate_vtg,
    is_plain, lines::Batch, owed, with_checksum, Answer, Limits, Ours, Refusal, KNOWN_TYPES,
};

const MORE_DECIMALS: &str = "Beside the decimal";
const ALIKE: &str = "Seconds and minutes of GGA and GLL";

/// The rows of the table under a heading.
fn rows(heading: &str) -> Vec<Row> {
    let rows = document::rows(section(heading));
    assert!(!rows.is_empty(), "no rows under {heading}");
    rows
}

/// A place of a decimal: the document's heading for it, and the rest of the
/// shortest body around it.
struct Place {
    heading: &'static str,
    before: &'static str,
    after: &'static str,
    limits: Limits,
    /// Probes beyond the limits and the float of this place.
    beyond: &'static [Probe],
    /// Whether the crate drops what follows the number.
    drops_the_rest: bool,
}

/// A class of texts that are no plain decimal within limits, and one such text.
type Probe = (&'static str, &'static str);

/// Tried at every place, before those beyond its limits.
const ANYWHERE: [Probe; 10] = [
    ("plus sign", "+1"),
    ("exponent", "1e1"),
    ("exponent", "1E+1"),
    ("nothing before the point", ".5"),
    ("nothing after the point", "5."),
    ("infinity", "inf"),
    ("infinity", "infinity"),
    ("not a number", "nan"),
    ("a sign before these words", "-inf"),
    ("a sign before these words", "+nan"),
];

/// Tried at every place, last.
const WITH_TEXT_AFTER: Probe = ("text after the number", "1x");

const BEYOND_SECONDS: [Probe; 4] = [
    ("exponent beyond the float", "1e309"),
    ("more than 3 digits before the point", "0001"),
    ("more than 9 digits after the point", "0.0000000005"),
    ("the same, rounded to a whole second", "59.9999999999"),
];

const BEYOND_MINUTES: [Probe; 3] = [
    ("exponent beyond the float", "1e309"),
    ("more than 3 digits before the point", "0001"),
    ("more than 9 digits after the point", "0.0000000005"),
];

const BEYOND_SHORT: [Probe; 3] = [
    ("exponent beyond the float", "1e39"),
    ("more than 7 digits", "12345678"),
    ("more than 7 digits", "1.2345678"),
];

/// A whole number and its comma are an item, unless it is above 4,294,967,295.
const BEYOND_PDOP: [Probe; 3] = [
    ("exponent beyond the float", "1e39"),
    ("more than 7 digits", "5000000000"),
    ("more than 7 digits", "1.2345678"),
];

const PLACES: [Place; 17] = [
    Place {
        heading: "Seconds",
        before: "GNRMC,0000",
        after: ",A,,,,,,,,,",
        limits: Limits::Long,
        beyond: &BEYOND_SECONDS,
        drops_the_rest: true,
    },
    Place {
        heading: "Minutes of latitude",
        before: "GNRMC,,A,00",
        after: ",N,0000,E,,,,,",
        limits: Limits::Long,
        beyond: &BEYOND_MINUTES,
        drops_the_rest: false,
    },
    Place {
        heading: "Minutes of longitude",
        before: "GNRMC,,A,000,N,000",
        after: ",E,,,,,",
        limits: Limits::Long,
        beyond: &BEYOND_MINUTES,
        drops_the_rest: false,
    },
    Place {
        heading: "Speed",
        before: "GNRMC,,A,,,,,",
        after: ",,,,",
        limits: Limits::Short,
        beyond: &BEYOND_SHORT,
        drops_the_rest: false,
    },
    Place {
        heading: "Course",
        before: "GNRMC,,A,,,,,,",
        after: ",,,",
        limits: Limits::Short,
        beyond: &BEYOND_SHORT,
        drops_the_rest: false,
    },
    Place {
        heading: "Variation",
        before: "GNRMC,,A,,,,,,,,",
        after: ",E",
        limits: Limits::Short,
        beyond: &BEYOND_SHORT,
        drops_the_rest: false,
    },
    Place {
        heading: "PDOP",
        before: "GNGSA,A,1,",
        after: ",1,1",
        limits: Limits::Short,
        beyond: &BEYOND_PDOP,
        drops_the_rest: false,
    },
    Place {
        heading: "HDOP",
        before: "GNGSA,A,1,1.0,",
        after: ",1",
        limits: Limits::Short,
        beyond: &BEYOND_SHORT,
        drops_the_rest: false,
    },
    Place {
        heading: "VDOP",
        before: "GNGSA,A,1,1.0,1,",
        after: "",
        limits: Limits::Short,
        beyond: &BEYOND_SHORT,
        drops_the_rest: true,
    },
    Place {
        heading: "HDOP of GGA",
        before: "GNGGA,,,,,,0,,",
        after: ",,,,",
        limits: Limits::Short,
        beyond: &BEYOND_SHORT,
        drops_the_rest: false,
    },
    Place {
        heading: "Altitude",
        before: "GNGGA,,,,,,0,,,",
        after: ",,,",
        limits: Limits::Short,
        beyond: &BEYOND_SHORT,
        drops_the_rest: false,
    },
    Place {
        heading: "Geoid separation",
        before: "GNGGA,,,,,,0,,,,,",
        after: ",",
        limits: Limits::Short,
        beyond: &BEYOND_SHORT,
        drops_the_rest: false,
    },
    Place {
        heading: "True course of VTG",
        before: "GNVTG,",
        after: ",,,,,,",
        limits: Limits::Short,
        beyond: &BEYOND_SHORT,
        drops_the_rest: false,
    },
    Place {
        heading: "Magnetic course of VTG",
        before: "GNVTG,,,",
        after: ",,,,",
        limits: Limits::Short,
        beyond: &BEYOND_SHORT,
        drops_the_rest: false,
    },
    Place {
        heading: "Speed in knots",
        before: "GNVTG,,,,,",
        after: ",,",
        limits: Limits::Short,
        beyond: &BEYOND_SHORT,
        drops_the_rest: false,
    },
    Place {
        heading: "Speed in km/h behind the N",
        before: "GNVTG,,,,,,N",
        after: ",",
        limits: Limits::Short,
        beyond: &BEYOND_SHORT,
        drops_the_rest: false,
    },
    Place {
        heading: "Speed in km/h in place of the N",
        before: "GNVTG,,,,,,",
        after: ",",
        limits: Limits::Short,
        beyond: &BEYOND_SHORT,
        drops_the_rest: false,
    },
];

/// Seconds and minutes of other types than RMC, whose are the first of all
/// places, in the same order. The heading is the class of their row.
const LIKE_RMC: [Place; 6] = [
    Place {
        heading: "seconds of GGA",
        before: "GNGGA,0000",
        after: ",,,,,0,,,,,,",
        limits: Limits::Long,
        beyond: &BEYOND_SECONDS,
        drops_the_rest: true,
    },
    Place {
        heading: "minutes of latitude of GGA",
        before: "GNGGA,,00",
        after: ",N,0000,E,0,,,,,,",
        limits: Limits::Long,
        beyond: &BEYOND_MINUTES,
        drops_the_rest: false,
    },
    Place {
        heading: "minutes of longitude of GGA",
        before: "GNGGA,,000,N,000",
        after: ",E,0,,,,,,",
        limits: Limits::Long,
        beyond: &BEYOND_MINUTES,
        drops_the_rest: false,
    },
    Place {
        heading: "seconds of GLL",
        before: "GNGLL,,,,,0000",
        after: ",A,",
        limits: Limits::Long,
        beyond: &BEYOND_SECONDS,
        drops_the_rest: true,
    },
    Place {
        heading: "minutes of latitude of GLL",
        before: "GNGLL,00",
        after: ",N,0000,E,,A,",
        limits: Limits::Long,
        beyond: &BEYOND_MINUTES,
        drops_the_rest: false,
    },
    Place {
        heading: "minutes of longitude of GLL",
        before: "GNGLL,000,N,000",
        after: ",E,,A,",
        limits: Limits::Long,
        beyond: &BEYOND_MINUTES,
        drops_the_rest: false,
    },
];

impl Place {
    fn sentence(&self, text: &str) -> String {
        with_checksum(&format!("{}{text}{}", self.before, self.after))
    }

    fn answer(&self, text: &str) -> Answer {
        crate_answer(self.sentence(text).as_bytes())
    }

    fn probes(&self) -> impl Iterator<Item = Probe> + '_ {
        let beyond = self.beyond.iter().copied();
        ANYWHERE.into_iter().chain(beyond).chain([WITH_TEXT_AFTER])
    }

    fn is_seconds(&self) -> bool {
        self.heading.to_lowercase().starts_with("seconds")
    }

    /// Whether document 01 answers Number to this text here.
    fn is_number_refusal(&self, text: &str) -> bool {
        !text.is_empty() && !is_plain(text, self.limits)
    }
}

fn number() -> String {
    describe_refusal(&Refusal::Number)
}

#[test]
fn every_decimal_row() {
    for place in &PLACES {
        for row in rows(place.heading) {
            assert_eq!(row.sentence, place.sentence(row.text), "{}", place.heading);
            assert!(place.is_number_refusal(row.text), "{}", row.sentence);
            assert_eq!(row.ours, number(), "{}", row.sentence);
            assert_eq!(
                row.theirs,
                describe(&place.answer(row.text)),
                "{}",
                row.sentence
            );
        }
    }
}

#[test]
fn a_place_lists_the_probes_that_the_crate_accepts_there() {
    for place in &PLACES {
        let listed: Vec<Probe> = rows(place.heading)
            .iter()
            .map(|row| (row.class, row.text))
            .collect();
        let accepted: Vec<Probe> = place
            .probes()
            .filter(|(_, text)| place.answer(text).number() == 0)
            .collect();
        assert_eq!(listed, accepted, "{}", place.heading);

        // The others are a parsing error, and none is inside the domain.
        for (_, text) in place.probes() {
            assert!(place.is_number_refusal(text), "{}", place.sentence(text));
            let number = place.answer(text).number();
            assert!(matches!(number, 0 | 4), "{}", place.sentence(text));
        }
    }
}

#[test]
fn seconds_and_minutes_are_read_alike_in_every_type() {
    let rows = rows(ALIKE);
    assert_eq!(rows.len(), LIKE_RMC.len());
    for (index, (row, place)) in rows.iter().zip(&LIKE_RMC).enumerate() {
        assert_eq!(row.class, place.heading);
        assert_eq!(row.sentence, place.sentence(row.text), "{}", place.heading);
        assert!(place.is_number_refusal(row.text), "{}", row.sentence);
        assert_eq!(row.ours, number(), "{}", row.sentence);
        let theirs = describe(&place.answer(row.text));
        assert_eq!(row.theirs, theirs, "{}", row.sentence);
        assert!(theirs.starts_with("accepts"), "{}", row.sentence);

        // What is listed of RMC, and what is not.
        let of_rmc = &PLACES[index % 3];
        let probes = place.probes().map(|(_, text)| text.to_string());
        for text in probes.chain(texts("1.+-eEx", 4)) {
            let line = place.sentence(&text);
            assert_eq!(
                describe(&place.answer(&text)),
                describe(&of_rmc.answer(&text)),
                "{line}"
            );
            let is_owed = owed(line.as_bytes()) == Some(Refusal::Number);
            assert_eq!(is_owed, place.is_number_refusal(&text), "{line}");
        }
    }
}

#[test]
fn a_minus_sign_alone_is_no_difference() {
    let mut tried = 0;
    for place in PLACES.iter().chain(&LIKE_RMC) {
        let number = if place.is_seconds() { 4 } else { 0 };
        for text in texts("-10.", 6) {
            if !text.starts_with('-') || !is_plain(&text, place.limits) {
                continue;
            }
            let line = place.sentence(&text);
            assert_eq!(owed(line.as_bytes()), None, "{line}");
            assert_eq!(place.answer(&text).number(), number, "{line}");
            tried += 1;
        }
    }
    assert!(tried > 500, "{tried}");
}

#[test]
fn seconds_that_round_to_a_whole_one() {
    // The time type has room for a leap second behind the 59th alone.
    let seconds = &PLACES[0];
    assert_eq!(seconds.answer("59.9999999999").number(), 0);
    for second in 0..59 {
        let text = format!("{second}.9999999999");
        assert_eq!(seconds.answer(&text), Answer::Refused(Refusal::Syntax));
    }
}

#[test]
fn rows_beside_the_decimal() {
    for row in rows(MORE_DECIMALS) {
        let body = row
            .sentence
            .trim_start_matches('$')
            .split('*')
            .next()
            .unwrap();
        assert_eq!(row.sentence, with_checksum(body));
        assert!(
            body.split(',')
                .any(|field| field.trim_start_matches('N') == row.text),
            "{}",
            row.sentence
        );
        assert!(!is_plain(row.text, Limits::Short), "{}", row.sentence);
        assert_eq!(row.ours, number(), "{}", row.sentence);
        let answer = crate_answer(row.sentence.as_bytes());
        assert_ne!(answer, Answer::Refused(Refusal::Syntax), "{}", row.sentence);
        assert_eq!(row.theirs, describe(&answer), "{}", row.sentence);
    }
}

#[test]
fn every_type_row() {
    for row in rows(TYPES) {
        let line = row.sentence.as_bytes();
        let answer = match row.text {
            "parse_bytes" => crate_answer(line),
            "parse_rmc" => crate_rmc(line).map_or_else(Answer::Refused, Answer::Rmc),
            "parse_gsa" => crate_gsa(line).map_or_else(Answer::Refused, Answer::Gsa),
            "parse_gsv" => crate_gsv(line).map_or_else(Answer::Refused, Answer::Gsv),
            "parse_gga" => crate_gga(line).map_or_else(Answer::Refused, Answer::Gga),
            "parse_gll" => crate_gll(line).map_or_else(Answer::Refused, Answer::Gll),
            "parse_vtg" => crate_vtg(line).map_or_else(Answer::Refused, Answer::Vtg),
            function => panic!("no function {function}"),
        };
        let name = &row.sentence[3..6];
        assert!(unknown_types().contains(&name), "{}", row.sentence);
        assert_eq!(
            row.ours,
            describe_refusal(&Refusal::UnknownType),
            "{}",
            row.sentence
        );
        assert_eq!(row.theirs, describe(&answer), "{}", row.sentence);
    }
}

#[test]
fn no_row_is_left_out() {
    let run: usize = PLACES
        .iter()
        .map(|place| place.heading)
        .chain([ALIKE, MORE_DECIMALS, TYPES])
        .map(|heading| rows(heading).len())
        .sum();
    assert_eq!(all_rows().len(), run);
}

/// The crate's types of three letters that are none of document 01's thirty.
fn unknown_types() -> Vec<&'static str> {
    SentenceType::TYPES
        .iter()
        .map(SentenceType::as_str)
        .filter(|name| name.len() == 3 && !KNOWN_TYPES.contains(name))
        .collect()
}

#[test]
fn the_list_of_types() {
    let listed = listed_types();
    assert_eq!(listed, unknown_types());

    for name in listed {
        let body = format!("GN{name},");
        let line = with_checksum(&body);
        let expected = Answer::Other(name.as_bytes().try_into().unwrap());
        assert_eq!(crate_answer(line.as_bytes()), expected);

        let calculated = body.bytes().fold(0, |sum, byte| sum ^ byte);
        let found = calculated ^ 1;
        let line = format!("${body}*{found:02X}");
        let expected = Answer::Refused(Refusal::Checksum { calculated, found });
        assert_eq!(crate_answer(line.as_bytes()), expected);

        let line = format!("$GN{name}");
        let expected = Answer::Refused(Refusal::Syntax);
        assert_eq!(crate_answer(line.as_bytes()), expected);
    }
}

#[test]
fn the_type_of_six_letters() {
    let long: Vec<&str> = SentenceType::TYPES
        .iter()
        .map(SentenceType::as_str)
        .filter(|name| name.len() != 3)
        .collect();
    assert_eq!(long, ["HWBIAS"]);
    let line = with_checksum("GNHWBIAS,");
    assert_eq!(
        crate_answer(line.as_bytes()),
        Answer::Refused(Refusal::Syntax)
    );
}

#[test]
fn letters_in_any_case() {
    for place in &PLACES {
        for word in ["inf", "infinity", "nan"] {
            let expected = describe(&place.answer(word));
            for mask in 0..1 << word.len() {
                let mixed: String = word
                    .chars()
                    .enumerate()
                    .map(|(i, letter)| match mask >> i & 1 {
                        0 => letter,
                        _ => letter.to_ascii_uppercase(),
                    })
                    .collect();
                // A capital N would be the letter of the knots.
                if place.heading.ends_with("in place of the N") && mixed.starts_with('N') {
                    let expected = Answer::Refused(Refusal::Syntax);
                    assert_eq!(place.answer(&mixed), expected, "{mixed}");
                    continue;
                }
                assert_eq!(describe(&place.answer(&mixed)), expected, "{mixed}");
            }
        }
    }
}

/// How many bytes of a text the crate takes as a number, by the document's
/// words. The words of letters are left to the test above.
fn taken(text: &str) -> Option<usize> {
    let bytes = text.as_bytes();
    let sign = |at: usize| usize::from(matches!(bytes.get(at), Some(b'+' | b'-')));
    let digits = |at: usize| {
        bytes[at..]
            .iter()
            .take_while(|byte| byte.is_ascii_digit())
            .count()
    };

    let start = sign(0);
    let whole = digits(start);
    let mut at = start + whole;
    if bytes.get(at) == Some(&b'.') {
        at += 1 + digits(at + 1);
    }
    if at - start == 0 || &text[start..at] == "." {
        return None;
    }
    if matches!(bytes.get(at), Some(b'e' | b'E')) {
        at += 1;
        at += sign(at);
        let exponent = digits(at);
        if exponent == 0 {
            return None;
        }
        at += exponent;
    }
    Some(at)
}

/// All texts of the letters, from one to `longest` of them.
fn texts(letters: &str, longest: usize) -> Vec<String> {
    let mut all: Vec<String> = vec![];
    let mut last = vec![String::new()];
    for _ in 0..longest {
        last = last
            .iter()
            .flat_map(|text| letters.chars().map(move |letter| format!("{text}{letter}")))
            .collect();
        all.extend_from_slice(&last);
    }
    all
}

#[test]
fn short_texts_are_accepted_exactly_by_the_words() {
    let mut tried = [0; 2];
    for place in &PLACES {
        for text in texts("1.+-eEx", 5) {
            if !place.is_number_refusal(&text) {
                continue;
            }
            let expected = taken(&text).is_some_and(|end| {
                let seconds_fit = || {
                    let value: f64 = text[..end].parse().unwrap();
                    value.is_sign_positive() && value < 60.
                };
                (end == text.len() || place.drops_the_rest)
                    && (!place.is_seconds() || seconds_fit())
            });
            let number = place.answer(&text).number();
            assert_eq!(
                number,
                if expected { 0 } else { 4 },
                "{}",
                place.sentence(&text)
            );
            tried[usize::from(expected)] += 1;
        }
    }
    // Neither side of the equality is empty.
    assert!(tried.iter().all(|&count| count > 1000), "{tried:?}");
}

#[test]
fn we_answer_as_the_rows_say() {
    // The rows of the readers of one type, which we do not export, say what they
    // answer to the same line.
    let rows = all_rows();
    let lines: Batch = rows.iter().map(|row| row.sentence).collect();
    let answers = Ours::find()
        .expect("our reader")
        .answers(&lines)
        .expect("answers");
    for (row, words) in rows.iter().zip(answers) {
        match answer_of(&words).expect("words of an answer").answer {
            Answer::Refused(refusal) => {
                assert_eq!(describe_refusal(&refusal), row.ours, "{}", row.sentence)
            }
            other => panic!("{}: we accept: {other:?}", row.sentence),
        }
    }
}
