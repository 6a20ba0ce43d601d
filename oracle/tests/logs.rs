//! Whole logs, real and generated: our walk counts what 01's words count,
//! after every line, and hands out the groups that they list.

use std::error::Error;

use oracle::{
    lines::{corpus, generated_log},
    pieces, totals_of, with_checksum, Log, Totals, LONGEST_LOG,
};

type Checked = Result<(), Box<dyn Error>>;

fn log_of(bodies: &[&str]) -> Vec<u8> {
    let lines = bodies.iter().map(|body| with_checksum(body) + "\n");
    lines.collect::<String>().into_bytes()
}

/// The last of the totals, which are those of the whole log.
fn all_totals(log: &[u8]) -> Totals {
    Log::of(log).totals().last().copied().unwrap_or_default()
}

#[test]
fn the_program_prints_the_totals_of_every_real_log() -> Checked {
    for log in corpus()? {
        for piece in pieces(&log.bytes) {
            let printed = totals_of(piece)?;
            assert_eq!(
                printed.out,
                format!("{}\n", all_totals(piece)),
                "{}",
                log.name
            );
        }
    }
    Ok(())
}

#[test]
fn the_program_prints_the_totals_of_generated_logs() -> Checked {
    for seed in 0..100 {
        let log = generated_log(seed);
        let printed = totals_of(&log)?;
        assert_eq!(
            printed.out,
            format!("{}\n", all_totals(&log)),
            "seed {seed}"
        );
    }
    Ok(())
}

#[test]
fn pieces_are_the_log_cut_behind_line_feeds() {
    let line = "x".repeat(99) + "\n";
    let log = line.repeat(1_400).into_bytes();
    let cut = pieces(&log);
    assert_eq!(cut.concat(), log);
    let lengths: Vec<usize> = cut.iter().map(|piece| piece.len()).collect();
    assert_eq!(lengths, [65_500, 65_500, 9_000]);
    assert!(cut
        .iter()
        .all(|piece| piece.len() <= LONGEST_LOG && piece.ends_with(b"\n")));
    assert!(pieces(b"").is_empty());
}

/// The plain gatherer itself, on logs whose groups 01's words give at sight.
#[test]
fn groups_by_hand() {
    let groups = |bodies: &[&str]| -> Vec<(usize, u16, u16, Vec<u32>)> {
        let log = log_of(bodies);
        let groups = Log::of(&log).groups();
        groups
            .into_iter()
            .map(|(line, group)| {
                let satellites = group.entries.iter().map(|entry| entry.satellite);
                (line, group.sentences, group.in_view, satellites.collect())
            })
            .collect()
    };
    // Of one sentence, and of two with another system between.
    assert_eq!(groups(&["GPGSV,1,1,01,07,,,"]), [(0, 1, 1, vec![7])]);
    let between = ["GPGSV,2,1,02,07,,,", "GLGSV,1,1,00,", "GPGSV,2,2,02,08,,,"];
    assert_eq!(groups(&between), [(1, 1, 0, vec![]), (2, 2, 2, vec![7, 8])]);
    // Talkers of one system count together.
    let together = ["BDGSV,2,1,02,07,,,", "GBGSV,2,2,02,08,,,"];
    assert_eq!(groups(&together), [(1, 2, 2, vec![7, 8])]);
    // A refused line and one that is not GSV are not between.
    let refused = [
        "GPGSV,2,1,02,07,,,",
        "GPGSV,2,x",
        "GPTXT,",
        "GPGSV,2,2,02,08,,,",
    ];
    assert_eq!(groups(&refused), [(3, 2, 2, vec![7, 8])]);
    // A number 1 starts anew.
    let anew = [
        "GPGSV,2,1,02,06,,,",
        "GPGSV,2,1,02,07,,,",
        "GPGSV,2,2,02,08,,,",
    ];
    assert_eq!(groups(&anew), [(2, 2, 2, vec![7, 8])]);
    // What breaks a run.
    for between in [
        "GPGSV,2,0,02,",
        "GPGSV,2,3,02,",
        "GPGSV,0,0,02,",
        "GPGSV,10,1,02,",
        "GPGSV,2,2,03,",
        "GPGSV,3,2,02,",
    ] {
        let log = ["GPGSV,2,1,02,07,,,", between, "GPGSV,2,2,02,08,,,"];
        assert_eq!(groups(&log), [], "{between}");
    }
    // Nine sentences are a group, and ten are none.
    for (count, found) in [(9, 1), (10, 0)] {
        let bodies: Vec<String> = (1..=count)
            .map(|number| format!("GPGSV,{count},{number},36,1,,,,2,,,,3,,,,4,,,"))
            .collect();
        let bodies: Vec<&str> = bodies.iter().map(String::as_str).collect();
        let groups = groups(&bodies);
        assert_eq!(groups.len(), found);
        assert!(groups.iter().all(|(.., entries)| entries.len() == 36));
    }
}

#[cfg(target_arch = "x86_64")]
mod linked {
    use oracle::{
        answer_of, expected, linked, linked_fresh, linked_gather, linked_row, linked_totals,
        row_read, stretches, Answer, Cell, Entry, Gathered, Group, Log, WholeEntry, DONE,
        ROW_WORDS, TABLE,
    };

    use super::*;

    /// How many logs are generated.
    const GENERATED: u64 = 1_000;

    /// Holds our totals after every line of a log to the plain ones, our
    /// answers to all lines to the expected ones, and the list of our groups to
    /// the plain list. How many groups there are.
    fn agrees(log: &[u8], name: &str) -> usize {
        let plain = Log::of(log);
        let mut end = 0;
        let mut counts = vec![];
        let ends = [0].into_iter().chain(stretches(log).map(<[u8]>::len));
        for (lines, totals) in ends.zip(plain.totals()).map(|(length, totals)| {
            end += length;
            (&log[..end], totals)
        }) {
            let ours = linked_totals(lines);
            assert_eq!(ours, Ok(totals), "{name}, the first {} lines", totals.lines);
            counts.push(totals.groups);
        }
        assert_eq!(end, log.len());
        for line in &plain.lines {
            let ours = answer_of(&linked(line));
            assert_eq!(ours, Ok(expected(line)), "{}", line.escape_ascii());
        }
        let groups = plain.groups();
        assert_eq!(our_groups(log, &counts), groups, "{name}");
        assert_eq!(gathered(&plain.lines), groups, "{name}");
        groups.len()
    }

    /// The groups of our side: at each line where our walk counts one more, it
    /// ends with our answer to that line, and its entries are those of our
    /// answers to as many lines of its system.
    fn our_groups(log: &[u8], counts: &[u64]) -> Vec<(usize, Group)> {
        let answer = |line: &[u8]| answer_of(&linked(line)).expect("words of an answer").answer;
        let ours = Log::with_answers(log, answer);
        let records = |upto: usize| {
            ours.answers[..=upto]
                .iter()
                .flatten()
                .filter_map(|answer| match answer {
                    Answer::Gsv(record) => Some(record),
                    _ => None,
                })
        };
        let handed_out = (0..ours.lines.len()).filter(|&line| counts[line + 1] > counts[line]);
        handed_out
            .map(|line| {
                let last = records(line)
                    .next_back()
                    .expect("a group ends with a record");
                let mut lists: Vec<_> = records(line)
                    .filter(|record| record.system == last.system)
                    .map(|record| record.entries.into_iter().flatten())
                    .collect();
                let entries = lists.split_off(lists.len() - usize::from(last.sentences));
                let group = Group {
                    system: last.system,
                    sentences: last.sentences,
                    in_view: last.in_view,
                    entries: entries.into_iter().flatten().collect(),
                };
                (line, group)
            })
            .collect()
    }

    /// The groups that our side gathers over a table, line by line.
    fn gathered(lines: &[&[u8]]) -> Vec<(usize, Group)> {
        let mut table = vec![7; TABLE];
        assert_eq!(linked_fresh(&mut table), DONE);
        let mut words = [0; 40];
        let mut groups = vec![];
        for (index, line) in lines.iter().enumerate() {
            let did = linked_gather(line, &mut words, &mut table);
            let Some(Gathered::Group(system)) = Gathered::of(did) else {
                continue;
            };
            let mut words = [0; ROW_WORDS];
            assert_eq!(linked_row(&table, system as usize, &mut words), DONE);
            let (read, row) = row_read(&words).expect("the words of a row");
            assert_eq!((read, row.waits_for), (system, 0));
            let number = |word: u32| u16::try_from(word).expect("a number of a line");
            let group = Group {
                system,
                sentences: number(row.sentences),
                in_view: number(row.in_view),
                entries: row.cells.iter().map(entry).collect(),
            };
            groups.push((index, group));
        }
        groups
    }

    fn entry(cell: &Cell) -> Entry {
        let [elevation, azimuth, signal] = cell
            .places()
            .map(|place| place.map(|number| number.try_into().expect("a number of a line")));
        Entry::from(WholeEntry {
            satellite: cell.satellite,
            elevation,
            azimuth,
            signal,
        })
    }

    #[test]
    fn every_real_log_line_by_line() -> Checked {
        let mut groups = 0;
        let logs = corpus()?;
        for log in &logs {
            for piece in pieces(&log.bytes) {
                groups += agrees(piece, &log.name);
            }
        }
        println!("{} logs with {groups} groups", logs.len());
        assert!(groups > 0);
        Ok(())
    }

    /// What oracle/memcheck runs, where the walks after every line take long.
    #[test]
    fn every_real_log_at_once() -> Checked {
        for log in corpus()? {
            for piece in pieces(&log.bytes) {
                assert_eq!(linked_totals(piece), Ok(all_totals(piece)), "{}", log.name);
            }
        }
        Ok(())
    }

    #[test]
    fn generated_logs() {
        let mut with_groups = 0;
        let mut groups = 0;
        for seed in 0..GENERATED {
            let found = agrees(&generated_log(seed), &format!("seed {seed}"));
            with_groups += u64::from(found > 0);
            groups += found;
        }
        println!("{GENERATED} logs, {with_groups} with {groups} groups");
        assert!(with_groups > GENERATED / 2 && with_groups < GENERATED);
    }

    /// A log cut at any byte is a log.
    #[test]
    fn generated_logs_cut_anywhere() {
        for seed in GENERATED..GENERATED + 20 {
            let log = generated_log(seed);
            for end in 0..=log.len() {
                let cut = &log[..end];
                assert_eq!(
                    linked_totals(cut),
                    Ok(all_totals(cut)),
                    "seed {seed}, {end}"
                );
            }
        }
    }

    #[test]
    fn a_log_that_is_too_long() {
        assert_eq!(linked_totals(&vec![b'\n'; LONGEST_LOG + 1]), Err(12));
        let longest = linked_totals(&vec![b'\n'; LONGEST_LOG]);
        assert_eq!(longest.map(|totals| totals.blank), Ok(65_536));
    }
}
