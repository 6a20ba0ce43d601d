//! The reader linked into this process, and the program over a pipe: one
//! source, and the same answers.
#![cfg(target_arch = "x86_64")]

use std::error::Error;

use oracle::{
    answer_of,
    lines::{exhaustive_parts, worked_lines, Batch, Generator},
    linked, linked_fresh, linked_gather, linked_row, row_read, with_checksum, Cell, Ours, Row,
    System, DONE, GROUP, NO_GSV, NO_RUN, ROW, ROW_WORDS, TABLE, UNDONE, WAITS,
};
use proved_nmea::abi;

/// Some ten thousand lines of every kind.
fn lines() -> Batch {
    let mut lines: Batch = worked_lines()
        .into_iter()
        .chain(Generator::new(4).take(20_000))
        .collect();
    for part in exhaustive_parts() {
        part.fill(0..2_000, &mut lines);
    }
    lines
}

#[test]
fn both_ways_give_the_same_words() -> Result<(), Box<dyn Error>> {
    let lines = lines();
    let linked = Ours::Called(linked).answers(&lines)?;
    let piped = Ours::piped()?.answers(&lines)?;
    assert!(lines.len() > 30_000 && linked.len() == lines.len());
    for ((line, linked), piped) in lines.lines().zip(linked).zip(piped) {
        assert_eq!(linked, piped, "{}", line.escape_ascii());
    }
    Ok(())
}

#[test]
fn the_number_alone_is_that_of_the_answer() -> Result<(), Box<dyn Error>> {
    let lines = lines();
    for line in lines.lines() {
        let number = answer_of(&linked(line))?.answer.number();
        assert_eq!(abi::refusal(line), number.into(), "{}", line.escape_ascii());
    }
    Ok(())
}

#[test]
fn words_beyond_the_answer_are_left() {
    let mut words = [7; 41];
    assert_eq!(abi::answer(b"$GPTXT,i*0A", &mut words), DONE);
    assert_eq!((words[0], words[39], words[40]), (4, 0, 7));
    let mut few = [7; 39];
    assert_eq!(abi::answer(b"$GPTXT,i*0A", &mut few), UNDONE);
    assert_eq!(few, [7; 39]);
}

/// Lengths around those that the exports ask for.
const WORDS: [usize; 10] = [0, 1, 38, 39, 40, 41, 42, 292, 293, 294];
const TABLES: [usize; 8] = [0, 1, 147, 148, 887, 888, 889, 1776];

/// Words or a table that is no answer's, alone on the heap.
fn filled<T: Clone>(length: usize, word: T) -> Box<[T]> {
    vec![word; length].into()
}

#[test]
fn only_a_table_is_made_fresh() {
    for length in TABLES {
        let mut table = filled(length, 7);
        let (answer, expected) = if length == TABLE {
            (DONE, 0)
        } else {
            (UNDONE, 7)
        };
        assert_eq!(linked_fresh(&mut table), answer, "{length}");
        assert!(table.iter().all(|&word| word == expected), "{length}");
    }
}

/// Each line with buffers and tables of every length: nothing is written where
/// that is answered, and nothing behind what is.
#[test]
fn a_line_is_taken_with_words_and_a_table_that_are_long_enough() {
    let lines = [
        (with_checksum("GPGSV,2,1,02,01,,,"), WAITS),
        (with_checksum("GPGSV,1,1,00,"), GROUP),
        (with_checksum("GPGSV,1,2,00,"), NO_RUN),
        (with_checksum("GPTXT,i"), NO_GSV),
        (with_checksum("GPGGA,,,,,,1,,,,,,"), NO_GSV),
        (with_checksum("GPGLL,,,,,,A,"), NO_GSV),
        (with_checksum("GPVTG,,,,,,N1,"), NO_GSV),
        (String::new(), NO_GSV),
        ("x".into(), NO_GSV),
    ];
    for (line, expected) in lines {
        let line = line.as_bytes();
        let answer = linked(line);
        for count in WORDS {
            for length in TABLES {
                let at = format!("{}, {count} words, {length}", line.escape_ascii());
                let mut words = filled(count, 7);
                let mut table = filled(length, 7);
                let did = linked_gather(line, &mut words, &mut table);
                if count < 40 || length != TABLE {
                    assert_eq!(did, UNDONE, "{at}");
                    assert!(words.iter().all(|&word| word == 7), "{at}");
                    assert!(table.iter().all(|&word| word == 7), "{at}");
                    continue;
                }
                assert_eq!(did, expected, "{at}");
                assert_eq!(words[..40], answer, "{at}");
                assert!(words[40..].iter().all(|&word| word == 7), "{at}");
                let row: &[u32] = match did {
                    NO_RUN => &[7, 0],
                    // Of two sentences the second is waited for; one has come.
                    WAITS => &[2, 2, 2, 1, 1, u32::MAX, u32::MAX, u32::MAX],
                    GROUP => &[1, 0, 0, 0],
                    _ => &[],
                };
                assert_eq!(table[..row.len()], *row, "{at}");
                assert!(table[row.len()..].iter().all(|&word| word == 7), "{at}");
            }
        }
    }
}

#[test]
fn a_row_is_read_into_words_that_are_enough() {
    for length in TABLES {
        for row in [0, 1, 5, 6, 7, usize::MAX] {
            for count in WORDS {
                let at = format!("{length}, row {row}, {count} words");
                let table = filled(length, 7);
                let mut words = filled(count, 9);
                let read = linked_row(&table, row, &mut words);
                let is_read = length == TABLE && row < 6 && count >= ROW_WORDS;
                assert_eq!(read, if is_read { DONE } else { UNDONE }, "{at}");
                assert!(table.iter().all(|&word| word == 7), "{at}");
                let written = if is_read { ROW_WORDS } else { 0 };
                assert!(words[written..].iter().all(|&word| word == 9), "{at}");
                if is_read {
                    let cell = Cell {
                        satellite: 7,
                        elevation: Some(7),
                        azimuth: Some(7),
                        signal: Some(7),
                    };
                    let expected = Row {
                        sentences: 7,
                        waits_for: 7,
                        in_view: 7,
                        cells: vec![cell; 7],
                    };
                    let read = row_read(&words[..ROW_WORDS]);
                    assert_eq!(read, Ok((System::ALL[row], expected)), "{at}");
                }
            }
        }
    }
}

/// A row of 36 satellites is read, and one that counts more is not.
#[test]
fn a_row_has_at_most_36_satellites() {
    for (count, expected) in [
        (0, DONE),
        (36, DONE),
        (37, UNDONE),
        (256, UNDONE),
        (u32::MAX, UNDONE),
    ] {
        let mut table = filled(TABLE, 0);
        table[5 * ROW + 3] = count;
        let mut words = filled(ROW_WORDS, 9);
        assert_eq!(linked_row(&table, 5, &mut words), expected, "{count}");
        match expected {
            UNDONE => assert!(words.iter().all(|&word| word == 9), "{count}"),
            _ => {
                let (system, row) = row_read(&words).expect("the words of a row");
                assert_eq!((system, row.cells.len()), (System::NavIc, count as usize));
            }
        }
    }
}

/// The words of the answer are those of `nmea_answer`, whatever the table holds.
#[test]
fn a_line_that_is_taken_is_answered_the_same() {
    let mut table = filled(TABLE, 0);
    for line in lines().lines() {
        let mut words = filled(40, u64::MAX);
        let did = linked_gather(line, &mut words, &mut table);
        assert_eq!(*words, linked(line), "{}", line.escape_ascii());
        assert_eq!(did != NO_GSV, words[0] == 3, "{}", line.escape_ascii());
    }
}
