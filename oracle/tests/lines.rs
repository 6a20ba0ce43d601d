//! The generated lines: the same from the same seed, and of every kind.

use std::collections::{BTreeMap, HashSet};

use oracle::{crate_answer, expected, lines::Generator, Answer, Class, Refusal, LONGEST_FRAME};

#[test]
fn a_seed_gives_the_same_lines() {
    let lines = |seed| Generator::new(seed).take(1000).collect::<Vec<_>>();
    assert_eq!(lines(1), lines(1));
    assert_ne!(lines(1), lines(2));
}

#[test]
fn blocks_and_seeds_share_few_lines() {
    let lines = |seed, block| Generator::of_block(seed, block).take(1000);
    let all: HashSet<Vec<u8>> = (0..10)
        .flat_map(|seed| (0..10).flat_map(move |block| lines(seed, 1000 * block)))
        .collect();
    // What comes again is short, or a worked line with little damage.
    assert!(all.len() > 90_000, "{}", all.len());
}

#[test]
fn every_answer_is_reached() {
    let mut classes: BTreeMap<Class, usize> = BTreeMap::new();
    let mut lengths: BTreeMap<usize, usize> = BTreeMap::new();
    for line in Generator::new(1).take(20_000) {
        assert!(line.len() <= LONGEST_FRAME);
        *classes.entry(crate_answer(&line).class()).or_default() += 1;
        *lengths.entry(line.len()).or_default() += 1;
    }
    let all = [
        "1 BadUtf8",
        "2 NotAscii",
        "3 TooLong",
        "4 Syntax",
        "6 Checksum",
        "7 UnknownTalker",
        "8 SystemMismatch",
        "RMC",
        "GSA",
        "GSV",
        "GGA",
        "GLL",
        "VTG",
        "Other",
    ];
    let names = classes.keys().map(|class| class.name());
    assert!(names.eq(all), "{classes:?}");
    assert!(classes.values().all(|&count| count > 100), "{classes:?}");
    for length in [101, 102, 103] {
        assert!(lengths[&length] > 100, "{lengths:?}");
    }
}

/// Where the decimals of a type stand: their field behind the type's, and how
/// many bytes of it stand before them. Those of GSA stand behind its satellites.
const DECIMALS: [(&str, usize, usize); 17] = [
    ("RMC", 3, 2),
    ("RMC", 5, 3),
    ("RMC", 7, 0),
    ("RMC", 8, 0),
    ("RMC", 10, 0),
    ("GGA", 2, 2),
    ("GGA", 4, 3),
    ("GGA", 8, 0),
    ("GGA", 9, 0),
    ("GGA", 11, 0),
    ("GLL", 1, 2),
    ("GLL", 3, 3),
    ("VTG", 1, 0),
    ("VTG", 3, 0),
    ("VTG", 5, 0),
    // In place of the N, and behind it.
    ("VTG", 6, 0),
    ("VTG", 6, 1),
];

/// Seconds with a sign are refused.
const SECONDS: [(&str, usize, usize); 3] = [("RMC", 1, 4), ("GGA", 1, 4), ("GLL", 5, 4)];

#[test]
fn signs_come_at_every_decimal_place() {
    let mut signs = [0; DECIMALS.len()];
    let mut seconds = [0; SECONDS.len()];
    let mut dops = [0; 3];
    for line in Generator::new(1).take(40_000) {
        let fields: Vec<&[u8]> = line.split(|&byte| byte == b',').collect();
        let name = line.get(3..6).unwrap_or_default();
        let is_signed = |&(of, field, before): &(&str, usize, usize)| {
            let field = fields.get(field).copied().unwrap_or_default();
            of.as_bytes() == name && field.get(before) == Some(&b'-')
        };
        match crate_answer(&line) {
            Answer::Gsa(record) => {
                let bits = [record.pdop, record.hdop, record.vdop];
                for (count, bits) in dops.iter_mut().zip(bits) {
                    *count += usize::from(bits.is_some_and(|bits| bits >> 31 == 1));
                }
            }
            Answer::Refused(Refusal::Syntax) => {
                for (count, place) in seconds.iter_mut().zip(&SECONDS) {
                    *count += usize::from(is_signed(place));
                }
            }
            Answer::Refused(_) => {}
            _ => {
                for (count, place) in signs.iter_mut().zip(&DECIMALS) {
                    *count += usize::from(is_signed(place));
                }
            }
        }
    }
    for counts in [&signs[..], &seconds, &dops] {
        assert!(counts.iter().all(|&count| count > 100), "{counts:?}");
    }
}

/// What a speed of VTG is read from: knots, km/h behind the N or in its place.
#[test]
fn speeds_come_in_each_way() {
    let mut ways = [0; 4];
    for line in Generator::new(1).take(20_000) {
        let ours = expected(&line);
        let Answer::Vtg(_) = ours.answer else {
            continue;
        };
        let behind_knots = line.split(|&byte| byte == b',').nth(6);
        let has_letter = behind_knots.is_some_and(|field| field.starts_with(b"N"));
        ways[match ours.exact.speed {
            None => 0,
            Some(speed) if speed.unit == 'N' => 1,
            Some(_) if has_letter => 2,
            Some(_) => 3,
        }] += 1;
    }
    assert!(ways.iter().all(|&count| count > 100), "{ways:?}");
}
