//! What the program `nmea_log` prints: document 01's worked log, and logs at
//! their limits. What is expected is worked out from 01's words.

use std::{error::Error, fs::File};

use oracle::{totals_of, totals_of_file, with_checksum};

type Checked = Result<(), Box<dyn Error>>;

/// The five lines of 01's worked log, each ended by a line feed.
const WORKED: &str = concat!(
    "$GPGSV,3,1,11,03,03,111,00,04,15,270,00,06,01,010,00,13,06,292,00*74\n",
    "$GPGSV,3,2,11,14,25,170,00,16,57,208,39,18,67,296,40,19,40,246,00*74\n",
    "$GPGSV,3,3,11,22,42,067,42,24,14,311,43,27,05,244,00,,,,*4D\n",
    "\n",
    "$GPGSA,A,1,,,,*33\n",
);

fn prints(log: impl AsRef<[u8]>, expected: &str) -> Checked {
    let printed = totals_of(log.as_ref())?;
    assert_eq!(printed.out, format!("{expected}\n"));
    assert_eq!(printed.error, "");
    Ok(())
}

/// Lines with their checksums, each ended by a line feed.
fn log_of(sentences: &[&str]) -> Vec<u8> {
    let mut log = vec![];
    for sentence in sentences {
        log.extend(with_checksum(sentence).into_bytes());
        log.push(b'\n');
    }
    log
}

#[test]
fn the_worked_log() -> Checked {
    prints(WORKED, "lines 5 blank 1 accepted 3 refused 1 groups 1")
}

#[test]
fn the_worked_log_without_its_last_line_feed() -> Checked {
    prints(
        &WORKED[..WORKED.len() - 1],
        "lines 5 blank 1 accepted 3 refused 1 groups 1",
    )
}

#[test]
fn the_worked_log_with_carriage_returns() -> Checked {
    prints(
        WORKED.replace('\n', "\r\n"),
        "lines 5 blank 1 accepted 3 refused 1 groups 1",
    )
}

#[test]
fn an_empty_log_has_no_line() -> Checked {
    prints("", "lines 0 blank 0 accepted 0 refused 0 groups 0")
}

#[test]
fn a_carriage_return_alone_is_a_blank_line() -> Checked {
    prints("\r", "lines 1 blank 1 accepted 0 refused 0 groups 0")
}

#[test]
fn of_two_carriage_returns_one_is_kept() -> Checked {
    prints("\r\r\n", "lines 1 blank 0 accepted 0 refused 1 groups 0")
}

#[test]
fn line_feeds_as_many_as_a_log_may_have_bytes() -> Checked {
    prints(
        vec![b'\n'; 65_536],
        "lines 65536 blank 65536 accepted 0 refused 0 groups 0",
    )
}

#[test]
fn one_line_as_long_as_a_log_may_be() -> Checked {
    prints(
        vec![b'x'; 65_536],
        "lines 1 blank 0 accepted 0 refused 1 groups 0",
    )
}

#[test]
fn one_byte_too_many() -> Checked {
    prints(vec![b'\n'; 65_537], "refused 12")
}

#[test]
fn far_too_many_bytes() -> Checked {
    prints(WORKED.repeat(10_000), "refused 12")
}

#[test]
fn systems_in_turn_keep_their_runs() -> Checked {
    let log = log_of(&[
        "GPGSV,2,1,05,01,,,,02,,,,03,,,,04,,,",
        "GLGSV,2,1,05,65,,,,66,,,,67,,,,68,,,",
        "GPGSV,2,2,05,05,,,",
        "GLGSV,2,2,05,69,,,",
    ]);
    prints(log, "lines 4 blank 0 accepted 4 refused 0 groups 2")
}

#[test]
fn bd_and_gb_are_one_system() -> Checked {
    let log = log_of(&["BDGSV,2,1,02,01,,,", "GBGSV,2,2,02,02,,,"]);
    prints(log, "lines 2 blank 0 accepted 2 refused 0 groups 1")
}

/// Two receivers that are clones of each other, on one cable: each list is
/// cut by the other's, and none is handed out.
#[test]
fn clones_on_one_cable() -> Checked {
    let log = log_of(&[
        "GPGSV,2,1,05,01,,,,02,,,,03,,,,04,,,",
        "GPGSV,2,1,06,11,,,,12,,,,13,,,,14,,,",
        "GPGSV,2,2,05,05,,,",
        "GPGSV,2,2,06,15,,,,16,,,",
    ]);
    prints(log, "lines 4 blank 0 accepted 4 refused 0 groups 0")
}

/// A folder can be opened and not read: the error is told, and no total.
#[test]
fn a_read_error_is_no_end() -> Checked {
    let folder = File::open(env!("CARGO_MANIFEST_DIR"))?;
    let printed = totals_of_file(folder)?;
    assert_eq!(printed.out, "");
    assert!(
        printed.error.starts_with("standard input: "),
        "said {:?}",
        printed.error
    );
    Ok(())
}
