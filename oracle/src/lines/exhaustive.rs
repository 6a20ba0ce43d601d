//! What is small enough to be tried whole.

mod places;

use super::{draft::put_whole, worked_lines, Part};
use crate::{checksum, hexadecimal, repair};
use places::{ANGLES, DECIMALS, KILOMETRES, MORE_DECIMALS, THREE_BYTES, TWO_BYTES};

/// The values of a byte, and of one below 128.
const BYTES: u64 = 256;
const ASCII: u64 = 128;

/// The most digits of a short decimal.
const DIGITS: u32 = 7;

/// How many texts are short decimals without a sign: of each count of digits,
/// each number with a point behind any digit or with none.
const SHORT_DECIMALS: u64 = 76_543_210;

/// All parts that are tried whole.
pub fn exhaustive_parts() -> Vec<Part> {
    vec![
        talkers(),
        types(),
        checksums(),
        places("two-byte places", &TWO_BYTES, BYTES),
        places("three-byte places", &THREE_BYTES, ASCII),
        times(),
        dates(),
        counts(),
        single_bytes(),
        short_decimals("short decimals", &DECIMALS, ""),
        short_decimals("negative short decimals", &DECIMALS, "-"),
        signed_minutes(),
        satellites(),
        few_digits(),
        short_decimals("short decimals of GGA and VTG", &MORE_DECIMALS, ""),
        short_decimals("negative ones of GGA and VTG", &MORE_DECIMALS, "-"),
        short_decimals("speeds in km/h", &KILOMETRES, ""),
        short_decimals("negative speeds in km/h", &KILOMETRES, "-"),
    ]
}

/// Every two bytes as a talker, before each of these.
fn talkers() -> Part {
    const BEHIND: [&str; 17] = [
        "RMC,,A,,,,,,,,,",
        "GSA,A,1,,,,",
        "GSA,A,1,,,,1",
        "GSA,A,1,,,,2",
        "GSA,A,1,,,,3",
        "GSA,A,1,,,,4",
        "GSA,A,1,,,,5",
        "GSA,A,3,16,3.6,2.1,2.2",
        "GSA,A,3,16,3.6,2.1,2.2,1",
        "GSA,A,3,16,3.6,2.1,2.2,4",
        "GSV,1,1,01,01,40,083,46",
        "GSV,",
        "GGA,,,,,,1,,,,,,",
        "GLL,,,,,,A,",
        "VTG,,,,,,,",
        "TXT,",
        "HDG,",
    ];
    let count = BEHIND.len() as u64 * BYTES.pow(2);
    Part::listed("talkers", count, |index, line| {
        let (behind, talker) = (index / BYTES.pow(2), index % BYTES.pow(2));
        sentence(line, |line| {
            put_bytes(line, talker, 2, BYTES);
            line.extend_from_slice(BEHIND[behind as usize].as_bytes());
        });
    })
}

/// Every three bytes below 128 as a type, with a right checksum, with a wrong
/// one and with nothing behind.
fn types() -> Part {
    let count = 3 * ASCII.pow(3);
    Part::listed("types", count, |index, line| {
        let (end, name) = (index / ASCII.pow(3), index % ASCII.pow(3));
        let body = |line: &mut Vec<u8>| {
            line.extend_from_slice(b"GP");
            put_bytes(line, name, 3, ASCII);
        };
        match end {
            0 => sentence(line, |line| {
                body(line);
                line.push(b',');
            }),
            end => {
                line.push(b'$');
                body(line);
                line.extend_from_slice(if end == 1 { b",*80" } else { b"" });
            }
        }
    })
}

/// Every two bytes as the digits, against every sum.
fn checksums() -> Part {
    let count = ASCII * BYTES.pow(2);
    Part::listed("checksums", count, |index, line| {
        let (last, digits) = (index / BYTES.pow(2), index % BYTES.pow(2));
        line.extend_from_slice(b"$GPTXT,");
        line.push(last as u8);
        line.push(b'*');
        put_bytes(line, digits, 2, BYTES);
    })
}

/// Every combination of bytes below a bound at the marked place of each body.
fn places(name: &'static str, bodies: &'static [&str], bound: u64) -> Part {
    let width = bodies[0].matches('?').count() as u32;
    let texts = bound.pow(width);
    Part::listed(name, bodies.len() as u64 * texts, move |index, line| {
        let body = bodies[(index / texts) as usize];
        at_the_mark(line, body, |line| {
            put_bytes(line, index % texts, width, bound);
        });
    })
}

/// Every hhmmss.
fn times() -> Part {
    six_digits("times", "GPRMC,?,A,,,,,,,,,")
}

/// Every ddmmyy.
fn dates() -> Part {
    six_digits("dates", "GPRMC,,A,,,,,,,?,,")
}

fn six_digits(name: &'static str, body: &'static str) -> Part {
    Part::listed(name, 1_000_000, |index, line| {
        at_the_mark(line, body, |line| put_whole(line, index, 6));
    })
}

/// Every number of up to five digits at the three counts of GSV.
fn counts() -> Part {
    const BODIES: [&str; 3] = [
        "GPGSV,?,1,11,01,03,111,00",
        "GPGSV,3,?,11,02,03,111,00",
        "GPGSV,3,1,?,03,03,111,00",
    ];
    Part::listed("counts of GSV", 300_000, |index, line| {
        let body = BODIES[(index / 100_000) as usize];
        at_the_mark(line, body, |line| put_whole(line, index % 100_000, 1));
    })
}

/// Every byte at every place of each worked line, with the checksum as it was
/// and with a right one.
fn single_bytes() -> Part {
    let lines = worked_lines();
    let places: Vec<(usize, usize)> = lines
        .iter()
        .enumerate()
        .flat_map(|(index, line)| (0..line.len()).map(move |place| (index, place)))
        .collect();
    let count = places.len() as u64 * BYTES * 2;
    Part::listed("single bytes", count, move |index, line| {
        let (worked, place) = places[(index / (BYTES * 2)) as usize];
        let start = line.len();
        line.extend_from_slice(&lines[worked]);
        line[start + place] = (index / 2) as u8;
        if index % 2 == 1 {
            repair(&mut line[start..]);
        }
    })
}

/// Every number of satellites up to five digits, and as many to both sides of
/// the end of their range.
fn satellites() -> Part {
    const BODY: &str = "GPGGA,,,,,,1,?,,,,,";
    const BEYOND: u64 = 1 << 32;
    Part::listed("satellites of GGA", 300_000, |index, line| {
        let number = match index {
            0..100_000 => index,
            _ => BEYOND - 200_000 + index,
        };
        at_the_mark(line, BODY, |line| put_whole(line, number, 1));
    })
}

/// Every short decimal of a few digits, with either sign, at each place of GGA
/// and VTG.
fn few_digits() -> Part {
    /// Of one to four digits.
    const TEXTS: u64 = 43_210;
    let places = [&MORE_DECIMALS[..], &KILOMETRES].concat();
    let count = 2 * places.len() as u64 * TEXTS;
    Part::listed("few digits in GGA and VTG", count, move |index, line| {
        let (kind, text) = (index / TEXTS, index % TEXTS);
        at_the_mark(line, places[(kind / 2) as usize], |line| {
            line.extend_from_slice(if kind % 2 == 0 { b"" } else { b"-" });
            ShortDecimal::of(text).put(line);
        });
    })
}

/// Every short decimal behind the sign, its point anywhere, at one of the
/// places after another.
fn short_decimals(name: &'static str, bodies: &'static [&str], sign: &'static str) -> Part {
    Part::listed(name, SHORT_DECIMALS, move |index, line| {
        let decimal = ShortDecimal::of(index);
        // A whole PDOP without a sign would be a satellite.
        let is_item = sign.is_empty() && decimal.decimals == 0 && bodies == DECIMALS;
        let places = bodies.len() as u64 - u64::from(is_item);
        let body = bodies[(decimal.number % places) as usize];
        at_the_mark(line, body, |line| {
            line.extend_from_slice(sign.as_bytes());
            decimal.put(line);
        });
    })
}

/// All degrees, to each side, with each of the minutes below zero, in one type
/// after another.
fn signed_minutes() -> Part {
    let minutes = minutes_below_zero();
    let degrees: Vec<([&str; 3], String)> = ANGLES
        .iter()
        .flat_map(|&(bodies, width, bound)| {
            (0..bound).map(move |degrees| (bodies, format!("{degrees:0width$}")))
        })
        .collect();
    let count = (degrees.len() * minutes.len()) as u64;
    Part::listed("degrees and signed minutes", count, move |index, line| {
        let index = index as usize;
        let (bodies, degrees) = &degrees[index / minutes.len()];
        at_the_mark(line, bodies[index % bodies.len()], |line| {
            line.extend_from_slice(degrees.as_bytes());
            line.extend_from_slice(minutes[index % minutes.len()].as_bytes());
        });
    })
}

/// A minus sign and one to three digits, each of these alone and with decimals:
/// of each count up to nine the least, the next, one between and the greatest.
fn minutes_below_zero() -> Vec<String> {
    let mut decimals = vec![String::new()];
    for width in 1..=9 {
        let last = 10u32.pow(width as u32) - 1;
        decimals.extend([0, 1, last / 7 * 3, last].map(|number| format!(".{number:0width$}")));
    }
    let mut minutes = vec![];
    for width in 1..=3 {
        for whole in 0..10u32.pow(width as u32) {
            for decimals in &decimals {
                minutes.push(format!("-{whole:0width$}{decimals}"));
            }
        }
    }
    minutes
}

/// A text of so many digits, of which some stand behind the point.
struct ShortDecimal {
    number: u64,
    digits: u32,
    decimals: u32,
}

impl ShortDecimal {
    /// The one of that number among all.
    fn of(mut index: u64) -> Self {
        for digits in 1..=DIGITS {
            let forms = u64::from(digits);
            let texts = forms * 10u64.pow(digits);
            if index < texts {
                return ShortDecimal {
                    number: index / forms,
                    digits,
                    decimals: (index % forms) as u32,
                };
            }
            index -= texts;
        }
        panic!("there are not so many short decimals");
    }

    fn put(&self, line: &mut Vec<u8>) {
        let power = 10u64.pow(self.decimals);
        let whole = self.digits - self.decimals;
        put_whole(line, self.number / power, whole as usize);
        if self.decimals > 0 {
            line.push(b'.');
            put_whole(line, self.number % power, self.decimals as usize);
        }
    }
}

/// Appends a number as bytes, each below the bound.
fn put_bytes(line: &mut Vec<u8>, number: u64, count: u32, bound: u64) {
    for place in (0..count).rev() {
        line.push((number / bound.pow(place) % bound) as u8);
    }
}

/// Appends the sentence whose body has the written text in place of its marks.
fn at_the_mark(line: &mut Vec<u8>, body: &str, text: impl FnOnce(&mut Vec<u8>)) {
    let before = body.find('?').unwrap_or(body.len());
    let after = body.rfind('?').map_or(body.len(), |mark| mark + 1);
    sentence(line, |line| {
        line.extend_from_slice(&body.as_bytes()[..before]);
        text(line);
        line.extend_from_slice(&body.as_bytes()[after..]);
    });
}

/// Appends `$`, the body that is written, `*` and the right checksum.
fn sentence(line: &mut Vec<u8>, body: impl FnOnce(&mut Vec<u8>)) {
    line.push(b'$');
    let start = line.len();
    body(line);
    let sum = checksum(&line[start..]);
    line.push(b'*');
    line.extend(hexadecimal(sum));
}

#[cfg(test)]
mod tests {
    use std::collections::HashSet;

    use super::*;
    use crate::{crate_answer, is_plain, lines::Batch, Limits};

    #[test]
    fn short_decimals_are_as_many_as_their_digits_and_points_give() {
        let count: u64 = (1..=DIGITS).map(|n| u64::from(n) * 10u64.pow(n)).sum();
        assert_eq!(count, SHORT_DECIMALS);
    }

    #[test]
    fn every_short_decimal_comes_once() {
        let text = |index| {
            let mut text = vec![];
            ShortDecimal::of(index).put(&mut text);
            String::from_utf8(text).unwrap()
        };
        // All texts of up to five digits, and the last of all.
        let few: HashSet<String> = (0..543_210).map(text).collect();
        assert_eq!(few.len(), 543_210);
        assert!(few.iter().all(|text| is_plain(text, Limits::Short)));
        assert_eq!(text(SHORT_DECIMALS - 1), "9.999999");
    }

    #[test]
    fn every_short_decimal_is_read_as_one() {
        // Each count of decimals comes to each place; a whole PDOP has its sign.
        let all: [(&[&str], usize); 3] = [(&DECIMALS, 1), (&MORE_DECIMALS, 0), (&KILOMETRES, 0)];
        for (bodies, whole) in all {
            let all = 7 * bodies.len();
            for (sign, count) in [("", all - whole), ("-", all)] {
                let mut batch = Batch::default();
                short_decimals("", bodies, sign).fill(0..50_000, &mut batch);
                let mut kinds = HashSet::new();
                for line in batch.lines() {
                    assert_eq!(crate_answer(line).number(), 0, "{}", line.escape_ascii());
                    let (place, text) = marked(line, bodies);
                    assert_eq!(text.starts_with('-'), sign == "-", "{text}");
                    let decimals = text.split_once('.');
                    kinds.insert((place, decimals.map(|(_, decimals)| decimals.len())));
                }
                assert_eq!(kinds.len(), count);
            }
        }
    }

    /// Which of the marks stands for a field of the line, and that field.
    fn marked<'a>(line: &'a [u8], marks: &[&str]) -> (usize, &'a str) {
        let line = str::from_utf8(line).unwrap();
        let body = &line[1..line.len() - 3];
        let field = |mark: &str| {
            let (before, after) = mark.split_once('?')?;
            let text = body.strip_prefix(before)?.strip_suffix(after)?;
            (!text.contains(',')).then_some(text)
        };
        let mut fields = marks.iter().map(|mark| field(mark)).enumerate();
        fields
            .find_map(|(place, field)| Some((place, field?)))
            .unwrap()
    }

    #[test]
    fn minutes_below_zero_are_plain_and_come_once() {
        let minutes = minutes_below_zero();
        assert_eq!(minutes.len(), (10 + 100 + 1000) * (1 + 4 * 9));
        for text in &minutes {
            assert!(text.starts_with('-') && is_plain(text, Limits::Long));
        }
        let texts: HashSet<&String> = minutes.iter().collect();
        assert_eq!(texts.len(), minutes.len());
    }

    #[test]
    fn all_degrees_come_with_minutes_below_zero() {
        let mut batch = Batch::default();
        signed_minutes().fill(0..50_000, &mut batch);
        let marks: Vec<&str> = ANGLES.iter().flat_map(|(bodies, ..)| *bodies).collect();
        let mut met = HashSet::new();
        for line in batch.lines() {
            assert_eq!(crate_answer(line).number(), 0, "{}", line.escape_ascii());
            let (angle, field) = marked(line, &marks);
            let (degrees, minutes) = field.split_at(ANGLES[angle / 3].1);
            assert!(minutes.starts_with('-'), "{field}");
            met.insert((angle, degrees));
        }
        assert_eq!(met.len(), 3 * 2 * (100 + 256));
    }

    #[test]
    fn every_line_of_a_list_comes_once() {
        for part in exhaustive_parts() {
            if part.count > 1_000_000 {
                continue;
            }
            let mut batch = Batch::default();
            part.fill(0..part.count, &mut batch);
            let lines: HashSet<&[u8]> = batch.lines().collect();
            assert_eq!(lines.len() as u64, part.count, "{}", part.name);
        }
    }

    #[test]
    fn every_place_is_as_wide_as_its_part_says() {
        let widths = |bodies: &[&str]| -> HashSet<usize> {
            let width = |body: &&str| {
                let marks = body.matches('?').count();
                assert!(body.contains(&"?".repeat(marks)), "{body}");
                marks
            };
            bodies.iter().map(width).collect()
        };
        assert_eq!(widths(&TWO_BYTES), HashSet::from([2]));
        assert_eq!(widths(&THREE_BYTES), HashSet::from([3]));
        assert_eq!(widths(&DECIMALS), HashSet::from([1]));
        assert_eq!(widths(&MORE_DECIMALS), HashSet::from([1]));
        assert_eq!(widths(&KILOMETRES), HashSet::from([1]));
    }
}
