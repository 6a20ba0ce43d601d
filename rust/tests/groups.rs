//! The groups of a log, against 01's words, the plain gatherer and the proved walk.

mod common;

use std::fs;

use common::{
    corpus,
    gatherer::{gathered, gsv_lines, Handed},
    held, log_of,
    logs::{damaged, generated},
    worked_log, Random, GSV_1, GSV_2, GSV_3, WORKED_TOTALS,
};
use proved_nmea::{Entry, Gsv, System};

/// The longest log that the walk takes.
const LONGEST: usize = 65_536;

/// What each way of counting counts.
fn totals(log: &[u8]) -> String {
    held(log, 1 << 16).0.to_string()
}

fn handed(bodies: &[&str]) -> Vec<Handed> {
    held(&log_of(bodies), 1 << 16).1
}

fn groups(bodies: &[&str]) -> usize {
    handed(bodies).len()
}

fn satellites(group: &Handed) -> Vec<u32> {
    group.entries.iter().map(|entry| entry.satellite).collect()
}

/// The group that the last of these lines completes, by 01's words: n accepted
/// GSV lines of one system numbered 1 to n, n from 1 to 9, with equal n and
/// equal in-view count, and no other of that system between them.
fn group_at_the_end(records: &[(u64, Gsv)]) -> Option<Handed> {
    let (_, last) = records.last()?;
    let n = last.sentences;
    if !(1..=9).contains(&n) {
        return None;
    }
    let own: Vec<&(u64, Gsv)> = records
        .iter()
        .filter(|(_, record)| record.system == last.system)
        .collect();
    let run = &own[own.len().checked_sub(n.into())?..];
    let fits = (1..).zip(run).all(|(number, (_, record))| {
        (record.number, record.sentences, record.in_view) == (number, n, last.in_view)
    });
    fits.then(|| Handed {
        lines: run.iter().map(|(at, _)| *at).collect(),
        system: last.system,
        sentences: n,
        in_view: last.in_view,
        entries: run
            .iter()
            .flat_map(|(_, record)| record.entries)
            .flatten()
            .collect(),
    })
}

#[test]
fn the_worked_log() {
    assert_eq!(totals(worked_log("\n").as_bytes()), WORKED_TOTALS);
    assert_eq!(totals(worked_log("\r\n").as_bytes()), WORKED_TOTALS);
    let cut = worked_log("\n");
    assert_eq!(totals(cut.trim_end().as_bytes()), WORKED_TOTALS);
}

#[test]
fn the_worked_group() {
    let (_, groups) = held(worked_log("\n").as_bytes(), 1 << 16);
    let [group] = &groups[..] else {
        panic!("one group, and not {}", groups.len());
    };
    assert_eq!(group.lines, [1, 2, 3]);
    assert_eq!(
        (group.system, group.sentences, group.in_view),
        (System::Gps, 3, 11)
    );
    assert_eq!(satellites(group), [3, 4, 6, 13, 14, 16, 18, 19, 22, 24, 27]);
    let last = Entry {
        satellite: 27,
        elevation: Some(5),
        azimuth: Some(244),
        signal: Some(0),
    };
    assert_eq!(group.entries.last(), Some(&last));
}

/// One cable, two receivers with one talker: what a group is by 01's words.
#[test]
fn two_receivers_interleaved() {
    let log = [
        "GPGSV,2,1,05,01,10,100,40,02,20,110,41,03,30,120,42,04,40,130,43",
        "GPGSV,2,1,05,11,11,101,30,12,21,111,31,13,31,121,32,14,41,131,33",
        "GPGSV,2,2,05,05,50,140,44",
        "GPGSV,2,2,05,15,51,141,34",
    ];
    let groups = handed(&log);
    assert_eq!(groups.len(), 1);
    assert_eq!(groups[0].lines, [2, 3]);
    assert_eq!(satellites(&groups[0]), [11, 12, 13, 14, 5]);
}

#[test]
fn lines_and_their_ends() {
    let none = "lines 0 blank 0 accepted 0 refused 0 groups 0";
    let blank = "lines 1 blank 1 accepted 0 refused 0 groups 0";
    let refused = "lines 1 blank 0 accepted 0 refused 1 groups 0";
    assert_eq!(totals(b""), none);
    assert_eq!(totals(b"\n"), blank);
    assert_eq!(totals(b"\r"), blank);
    assert_eq!(totals(b"\r\n"), blank);
    assert_eq!(totals(b"\r\r\n"), refused);
    assert_eq!(totals(b"\0"), refused);
    assert_eq!(totals(b" \n"), refused);
    assert_eq!(totals(&[b'x'; LONGEST]), refused);
    assert_eq!(
        totals(&[b'\n'; LONGEST]),
        "lines 65536 blank 65536 accepted 0 refused 0 groups 0"
    );
}

#[test]
fn lists_of_one_sentence_and_of_nine() {
    assert_eq!(groups(&["GPGSV,1,1,00,"]), 1);
    let lines: Vec<String> = (1..=9)
        .map(|number| {
            format!("GAGSV,9,{number},36,{number}1,,,,{number}2,,,,{number}3,,,,{number}4,,,")
        })
        .collect();
    let lines: Vec<&str> = lines.iter().map(String::as_str).collect();
    let groups = handed(&lines);
    assert_eq!(groups.len(), 1);
    assert_eq!(groups[0].lines, [1, 2, 3, 4, 5, 6, 7, 8, 9]);
    assert_eq!(groups[0].entries.len(), 36);
    assert_eq!(groups[0].system, System::Galileo);
}

/// A satellite's number may be any, also the one that stands for absence elsewhere in a row.
#[test]
fn the_largest_satellite() {
    let groups = handed(&["GPGSV,1,1,01,4294967295,2147483647,0,"]);
    let entry = Entry {
        satellite: 4_294_967_295,
        elevation: Some(2_147_483_647),
        azimuth: Some(0),
        signal: None,
    };
    assert_eq!(groups[0].entries, [entry]);
}

#[test]
fn no_list_has_ten_sentences_or_none() {
    assert_eq!(groups(&["GPGSV,0,0,00,", "GPGSV,0,1,00,"]), 0);
    let ten: Vec<String> = (1..=10).map(|n| format!("GPGSV,10,{n},40,")).collect();
    let ten: Vec<&str> = ten.iter().map(String::as_str).collect();
    assert_eq!(groups(&ten), 0);
}

#[test]
fn systems_in_turn_keep_their_runs() {
    let bodies = [
        "GPGSV,2,1,05,01,,,",
        "GLGSV,2,1,05,65,,,",
        "GPGSV,2,2,05,05,,,",
        "GLGSV,2,2,05,69,,,",
    ];
    assert_eq!(groups(&bodies), 2);
}

#[test]
fn talkers_of_one_system_count_together() {
    assert_eq!(groups(&["BDGSV,2,1,02,01,,,", "GBGSV,2,2,02,02,,,"]), 1);
    let qzss = ["GQGSV,3,1,02,", "PQGSV,3,2,02,", "QZGSV,3,3,02,"];
    assert_eq!(groups(&qzss), 1);
    // A clone's line between them, by its other name, breaks the run.
    let cut = ["BDGSV,2,1,02,", "GBGSV,2,1,03,", "BDGSV,2,2,02,"];
    assert_eq!(groups(&cut), 0);
}

#[test]
fn what_breaks_a_run() {
    // A number left out, one that comes again, another n, another in-view count.
    assert_eq!(groups(&["GPGSV,3,1,05,", "GPGSV,3,3,05,"]), 0);
    let twice = [
        "GPGSV,3,1,05,",
        "GPGSV,3,2,05,",
        "GPGSV,3,2,05,",
        "GPGSV,3,3,05,",
    ];
    assert_eq!(groups(&twice), 0);
    assert_eq!(
        groups(&["GPGSV,2,1,05,", "GPGSV,3,2,05,", "GPGSV,2,2,05,"]),
        0
    );
    assert_eq!(groups(&["GPGSV,2,1,05,", "GPGSV,2,2,06,"]), 0);
    // A number of 0, or above its n, or an n that no list has.
    for odd in [
        "GPGSV,2,0,05,",
        "GPGSV,2,3,05,",
        "GPGSV,10,2,05,",
        "GPGSV,0,0,05,",
        "GPGSV,10,1,05,",
    ] {
        assert_eq!(groups(&["GPGSV,2,1,05,", odd, "GPGSV,2,2,05,"]), 0, "{odd}");
    }
}

#[test]
fn what_does_not_break_a_run() {
    let between = [
        "GPGSV,2,1,05,",
        "GPGSA,A,1,,,,",
        "GPTXT,i",
        "GPXYZ,",
        "GPGSV,2",
        "IDGSV,2,1,05,",
        "GPGSV,2,2,05,",
    ];
    assert_eq!(groups(&between), 1);
    let log = format!("{GSV_1}\n\n{GSV_2}\nGPGSV,3,1,11\n{GSV_2}x\n{GSV_3}");
    // The second of the second lines is accepted, text after the checksum being ignored.
    assert_eq!(
        totals(log.as_bytes()),
        "lines 6 blank 1 accepted 4 refused 1 groups 0"
    );
    let log = log.replace("74x", "75x");
    assert_eq!(
        totals(log.as_bytes()),
        "lines 6 blank 1 accepted 3 refused 2 groups 1"
    );
}

#[test]
fn a_first_sentence_starts_anew() {
    let again = ["GPGSV,2,1,05,", "GPGSV,2,1,06,", "GPGSV,2,2,06,"];
    assert_eq!(groups(&again), 1);
    let again = handed(&[
        "GPGSV,2,1,02,01,,,",
        "GPGSV,2,1,02,11,,,",
        "GPGSV,2,2,02,12,,,",
    ]);
    assert_eq!(satellites(&again[0]), [11, 12]);
    assert_eq!(again[0].lines, [2, 3]);
    // What was handed out does not stand any more.
    assert_eq!(
        groups(&["GPGSV,2,1,05,", "GPGSV,2,2,05,", "GPGSV,2,2,05,"]),
        1
    );
}

// Generated logs

/// Buffers that cut lines at all places, and those that hold many.
const CAPACITIES: [usize; 7] = [1, 2, 7, 31, 64, 300, 1 << 16];

#[test]
fn generated_logs() {
    let mut random = Random::new(3);
    let mut groups = 0;
    for round in 0..400 {
        let length = if round % 20 == 0 { LONGEST } else { 3_000 };
        let log = generated(&mut random, length);
        groups += held(&log, random.pick(&CAPACITIES)).1.len();
    }
    assert!(groups > 1_000, "{groups} groups are too few for a test");
}

#[test]
fn damaged_logs() {
    let mut random = Random::new(5);
    let (mut groups, mut refused) = (0, 0);
    for _ in 0..400 {
        let log = generated(&mut random, 3_000);
        let log = damaged(&mut random, log);
        let (totals, handed) = held(&log, random.pick(&CAPACITIES));
        groups += handed.len();
        refused += totals.refused;
    }
    assert!(groups > 1_000, "{groups} groups are too few for a test");
    assert!(refused > 1_000, "{refused} refusals are too few for a test");
}

#[test]
fn generated_groups_by_the_definition() {
    let mut random = Random::new(4);
    let mut count = 0;
    for _ in 0..300 {
        let log = generated(&mut random, 3_000);
        let records = gsv_lines(&log);
        let expected: Vec<Handed> = (1..=records.len())
            .filter_map(|end| group_at_the_end(&records[..end]))
            .collect();
        assert_eq!(gathered(&log), expected, "{}", log.escape_ascii());
        assert_eq!(held(&log, 1 << 16).1, expected, "{}", log.escape_ascii());
        count += expected.len();
    }
    assert!(count > 500, "{count} groups are too few for a test");
}

#[test]
fn corpus_logs() {
    let logs = corpus();
    if logs.is_empty() {
        println!("no corpus is beside the repository: nothing to walk");
    }
    for path in logs {
        let log = fs::read(&path).expect("a log of the corpus");
        held(&log, 1 << 16);
        held(&log, 50);
    }
}
