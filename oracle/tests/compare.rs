//! Compares our proved reader with the crate, line by line.

use std::error::Error;

use oracle::{compare, Amount, Ours, Plan};

const GENERATED: u64 = 100_000;
const SAMPLE: u64 = 10_000;

const PLAN: Plan = Plan {
    sample: SAMPLE,
    generated: Amount::Lines(GENERATED),
    seed: 1,
};

fn passes(ours: &Ours, plan: Plan) -> Result<u64, Box<dyn Error>> {
    let report = compare(ours, plan)?;
    println!("{report}");
    assert!(report.difference.is_none(), "the report above has the line");
    Ok(report.lines())
}

#[test]
fn ours_and_the_crate_answer_the_same() -> Result<(), Box<dyn Error>> {
    let lines = passes(&Ours::find()?, PLAN)?;
    assert!(lines > GENERATED + 18 * SAMPLE);
    Ok(())
}

/// As where the reader cannot be linked.
#[test]
fn the_program_and_the_crate_answer_the_same() -> Result<(), Box<dyn Error>> {
    let plan = Plan {
        sample: 1_000,
        generated: Amount::Lines(10_000),
        seed: 2,
    };
    let lines = passes(&Ours::piped()?, plan)?;
    assert!(lines > 28_000);
    Ok(())
}

/// Readers that are wrong in one thing each. The comparison must meet a line
/// that shows it, and shrink that line.
#[cfg(target_arch = "x86_64")]
mod wrong {
    use oracle::{compare, linked, repaired, Ours, Report, Words};

    use super::PLAN;

    fn report(answer: fn(&[u8]) -> Words) -> Report {
        compare(&Ours::Called(answer), PLAN).expect("nothing is read or written")
    }

    /// The first words of an answer, written over others.
    fn with(mut words: Words, first: [u64; 3], others: [u64; 3]) -> Words {
        if words[..3] == first {
            words[..3].copy_from_slice(&others);
        }
        words
    }

    const SYNTAX: [u64; 3] = [5, 4, 0];
    const UNKNOWN_TYPE: [u64; 3] = [5, 5, 0];
    const NUMBER: [u64; 3] = [5, 9, 0];

    /// The shortest line that shows it, and why.
    fn shows(answer: fn(&[u8]) -> Words, line: &str, why: &str) {
        let report = report(answer);
        let difference = report.difference.expect("the reader is wrong");
        assert_eq!(difference.line.escape_ascii().to_string(), line);
        assert!(difference.why.contains(why), "{}", difference.why);
    }

    #[test]
    fn number_too_often() {
        shows(
            |line| with(linked(line), SYNTAX, NUMBER),
            "",
            "neither Number nor",
        );
    }

    #[test]
    fn number_too_seldom() {
        let answer = |line: &[u8]| with(linked(line), NUMBER, SYNTAX);
        let difference = report(answer).difference.expect("the reader is wrong");
        assert!(difference.why.contains("is Number"), "{}", difference.why);
        assert!(difference.line.len() < 60, "{difference}");
    }

    #[test]
    fn unknown_type_too_often_and_too_seldom() {
        shows(
            |line| with(linked(line), SYNTAX, UNKNOWN_TYPE),
            "",
            "neither Number nor",
        );
        let answer = |line: &[u8]| with(linked(line), UNKNOWN_TYPE, SYNTAX);
        let difference = report(answer).difference.expect("the reader is wrong");
        assert_eq!(difference.line.len(), 6, "{difference}");
    }

    /// One navigational status is read as another: no worked line has one.
    #[test]
    fn one_letter_is_printed_with_both_answers() {
        let report = report(|line| {
            let mut words = linked(line);
            if words[0] == 1 && words[38] == b'V'.into() {
                words[38] = b'S'.into();
            }
            words
        });
        let printed = report.to_string();
        assert!(printed.ends_with(" 1 differ"), "{printed}");
        let difference = report.difference.expect("the reader is wrong");
        assert!(difference.line.len() < 60, "{difference}");
        for part in [
            "line   \"$",
            "bytes  24 ",
            "Some('S')",
            "Some('V')",
            "differ",
        ] {
            assert!(printed.contains(part), "{printed}");
        }
    }

    /// Minus zero, which the float alone tells.
    #[test]
    fn minus_zero_too_seldom() {
        let report = report(|line| {
            let mut words = linked(line);
            if words[0] == 1 && words[22] == (-0f32).to_bits().into() {
                words[22] = 0;
            }
            words
        });
        let difference = report.difference.expect("the reader is wrong");
        assert!(difference.line.len() < 30, "{difference}");
    }

    /// A latitude that minutes below zero lead across the equator.
    #[test]
    fn a_latitude_on_the_wrong_side() {
        let report = report(|line| {
            let mut words = linked(line);
            if words[0] == 1 && words[10] == 1 && words[12] == b'N'.into() {
                words[10] = 0;
                words[13] ^= 1 << 63;
            }
            words
        });
        let difference = report.difference.expect("the reader is wrong");
        assert!(difference.line.len() < 40, "{difference}");
    }

    /// The last bit of one float in some thousands.
    #[test]
    fn one_bit() {
        let report = report(|line| {
            let mut words = linked(line);
            if words[0] == 1 && words[20] % 1000 == 234 {
                words[22] ^= 1;
            }
            words
        });
        assert!(report.difference.is_some(), "{report}");
    }

    /// The same of a speed in km/h, in knots.
    #[test]
    fn one_bit_of_a_quotient() {
        let report = report(|line| {
            let mut words = linked(line);
            if words[0] == 8 && words[9] == b'K'.into() && words[11] % 1000 == 234 {
                words[14] ^= 1;
            }
            words
        });
        let difference = report.difference.expect("the reader is wrong");
        assert!(difference.line.len() < 30, "{difference}");
    }

    /// Where there are both, km/h are the speed.
    #[test]
    fn kilometres_before_knots() {
        let report = report(|line| {
            let knots = linked(line);
            let fields: Vec<&[u8]> = line.split(|&byte| byte == b',').collect();
            if knots[0] != 8 || fields[5].is_empty() {
                return knots;
            }
            // The same line without its knots.
            let cut = [&fields[..5], &[b""], &fields[6..]].concat().join(&b',');
            let kilometres = linked(&repaired(&cut).unwrap_or_default());
            match kilometres[8] {
                1 => kilometres,
                _ => knots,
            }
        });
        let difference = report.difference.expect("the reader is wrong");
        assert!(difference.line.len() < 30, "{difference}");
    }

    /// The comma behind GGA's geoid separation is not asked for, as its second
    /// unit is not.
    #[test]
    fn a_comma_too_few() {
        let report = report(|line| {
            let words = linked(line);
            let is_gga = line.get(3..6) == Some(b"GGA");
            if !is_gga || words[..3] != SYNTAX {
                return words;
            }
            let Some(star) = line.iter().position(|&byte| byte == b'*') else {
                return words;
            };
            let more = [&line[..star], b",", &line[star..]].concat();
            match repaired(&more).map(|line| linked(&line)) {
                Some(read) if read[0] == 6 => read,
                _ => words,
            }
        });
        let difference = report.difference.expect("the reader is wrong");
        assert!(difference.line.len() < 40, "{difference}");
    }
}
