//! Tables that are lent with any words: what a row stands for, and what lines
//! do to it, held against 01's words.
#![cfg(target_arch = "x86_64")]

use oracle::{
    compare_tables, lines::TableGenerator, lines_that_leave, linked_gather, plain_gather, row_of,
    with_checksum, Cell, Gathered, Lent, Row, System, Why, GROUP, NO_GSV, NO_RUN, ROW, TABLE,
    WAITS,
};

/// How many tables the comparison takes: some seconds' worth.
const TABLES: u64 = 120_000;

const PLACE_MAX: u32 = i32::MAX as u32;

/// A row of GPS that waits for the second line of two, with 8 in view.
fn waiting(cells: &[Cell]) -> Box<[u32; TABLE]> {
    let mut table = Box::new([0; TABLE]);
    let row = Row {
        sentences: 2,
        waits_for: 2,
        in_view: 8,
        cells: cells.to_vec(),
    };
    row.put(&mut table[..ROW]);
    table
}

fn cell(satellite: u32, places: [u32; 3]) -> Cell {
    let [elevation, azimuth, signal] = places.map(Some);
    Cell {
        satellite,
        elevation,
        azimuth,
        signal,
    }
}

/// What both sides answer to a line, which leaves them with the same table.
fn gathered(line: &str, table: &[u32; TABLE]) -> (u32, Box<[u32; TABLE]>) {
    let line = with_checksum(line);
    let (mut ours, mut plain) = (Box::new(*table), Box::new(*table));
    let mut words = [0; 40];
    let did = linked_gather(line.as_bytes(), &mut words, &mut *ours);
    let (plain_words, plain_did) = plain_gather(line.as_bytes(), &mut plain);
    assert_eq!(Gathered::of(did), Some(plain_did), "{line}");
    assert_eq!(words, plain_words, "{line}");
    assert_eq!(ours, plain, "{line}");
    (did, ours)
}

/// Two entries with numbers as long as can be need a line of 103 bytes; with
/// one digit less they go into one of 102.
#[test]
fn a_byte_decides_whether_a_row_stands() {
    let widest = cell(u32::MAX, [PLACE_MAX; 3]);
    let line = "GPGSV,2,2,8,5,6,7,8";

    let table = waiting(&[widest, widest]);
    assert_eq!(Lent::of(&table[..ROW]), Lent::Never(Why::Lines));
    let (did, after) = gathered(line, &table);
    assert_eq!(did, NO_RUN);
    // Only the number that is waited for changes.
    let mut expected = table.clone();
    expected[1] = 0;
    assert_eq!(after, expected);

    let shorter = cell(u32::MAX, [PLACE_MAX, PLACE_MAX, 214_748_364]);
    let table = waiting(&[widest, shorter]);
    let body = &lines_that_leave(&table[..ROW], "GP").expect("a row that stands")[0];
    assert_eq!(with_checksum(body).len(), 102);
    let (did, after) = gathered(line, &table);
    assert_eq!(did, GROUP);
    let group = Row {
        sentences: 2,
        waits_for: 0,
        in_view: 8,
        cells: vec![widest, shorter, cell(5, [6, 7, 8])],
    };
    assert_eq!(Row::of(&after[..ROW]), Some(group));
    assert_eq!(after[ROW..], table[ROW..]);
}

/// The limits of each word of a row, one at a time.
#[test]
fn rows_at_their_limits() {
    type Change = fn(&mut [u32]);
    let lent: [(Change, Lent); 16] = [
        (|_| {}, Lent::Run),
        (|row| row[0] = 9, Lent::Run),
        (|row| row[0] = 10, Lent::Never(Why::Sentences)),
        (|row| row[0] = 1, Lent::Never(Why::Sentences)),
        (|row| row[1] = 0, Lent::Nothing),
        (|row| row[1] = 1, Lent::Never(Why::Sentences)),
        (|row| row[1] = 3, Lent::Never(Why::Sentences)),
        (|row| row[2] = 65_535, Lent::Run),
        (|row| row[2] = 65_536, Lent::Never(Why::InView)),
        (|row| row[3] = 0, Lent::Run),
        // Four satellites go into the line that came, and a fifth does not.
        (|row| row[3] = 4, Lent::Run),
        (|row| row[3] = 5, Lent::Never(Why::Lines)),
        (|row| row[3] = 37, Lent::Never(Why::Count)),
        (|row| row[4] = u32::MAX, Lent::Run),
        (|row| row[5] = PLACE_MAX + 1, Lent::Never(Why::Number)),
        // Behind the count any word may stand.
        (|row| row[9] = PLACE_MAX + 1, Lent::Run),
    ];
    for (number, (change, expected)) in lent.into_iter().enumerate() {
        let mut table = waiting(&[cell(1, [2, 3, 4])]);
        change(&mut table[..ROW]);
        assert_eq!(Lent::of(&table[..ROW]), expected, "{number}");
        let line = format!("GPGSV,{},{},{},7,,,", table[0], table[1], table[2]);
        let (did, _) = gathered(&line, &table);
        match expected {
            Lent::Run => assert!([WAITS, GROUP].contains(&did), "{number}: {did}"),
            // No line has such an in-view count.
            Lent::Never(Why::InView) => assert_eq!(did, NO_GSV),
            // A number 1 starts anew, whatever the row is.
            _ if table[1] == 1 => assert_eq!(did, WAITS),
            _ => assert_eq!(did, NO_RUN, "{number}"),
        }
    }
}

#[test]
fn random_tables() {
    let report = compare_tables(linked_gather, TABLES, 1).unwrap_or_else(|what| panic!("{what}"));
    println!("{report}");
    assert_eq!(report.tables, TABLES);
    assert_eq!(report.missed(), Vec::<String>::new());
    assert!(
        report.did.values().all(|&count| count > TABLES / 100),
        "{report}"
    );
    assert!(report.by_a_byte.iter().all(|&count| count > TABLES / 100));
}

#[test]
fn a_seed_gives_the_same_tables() {
    let met = |seed| compare_tables(linked_gather, 1_000, seed);
    assert_eq!(met(1), met(1));
    assert_ne!(met(1), met(2));
}

/// The comparison itself: gatherers that are wrong in one word are found.
#[test]
fn a_wrong_gatherer_is_found() {
    fn waits_for_ever(line: &[u8], words: &mut [u64], table: &mut [u32]) -> u32 {
        linked_gather(line, words, table).min(WAITS)
    }
    fn writes_another_row(line: &[u8], words: &mut [u64], table: &mut [u32]) -> u32 {
        let did = linked_gather(line, words, table);
        if did == GROUP {
            table[TABLE - 1] ^= 1;
        }
        did
    }
    fn writes_behind_the_count(line: &[u8], words: &mut [u64], table: &mut [u32]) -> u32 {
        let did = linked_gather(line, words, table);
        if did == WAITS && table[3] < 36 {
            table[4 + 4 * table[3] as usize] ^= 1;
        }
        did
    }
    fn another_answer(line: &[u8], words: &mut [u64], table: &mut [u32]) -> u32 {
        let did = linked_gather(line, words, table);
        words[39] += u64::from(did == NO_RUN);
        did
    }
    /// As if a line could have 103 bytes.
    fn too_kind(line: &[u8], words: &mut [u64], table: &mut [u32]) -> u32 {
        let short = Lent::of(&table[..ROW]);
        let kind = Lent::with_lines_of(&table[..ROW], 103);
        if short != kind {
            table[3] -= 1;
        }
        linked_gather(line, words, table)
    }
    for wrong in [
        waits_for_ever,
        writes_another_row,
        writes_behind_the_count,
        another_answer,
        too_kind,
    ] {
        assert!(compare_tables(wrong, 10_000, 1).is_err());
    }
}

/// Rows that stand by the plain rule are left by lines: these are accepted,
/// and leave the row in a fresh table, on both sides.
#[test]
fn lines_leave_the_rows_that_stand() {
    const TALKERS: [&str; 6] = ["GP", "GL", "GA", "BD", "QZ", "GI"];
    let mut generator = TableGenerator::new(2);
    let mut table = Box::new([0; TABLE]);
    let (mut stand, mut empty, mut longest) = (0, 0, 0);
    for _ in 0..3_000 {
        generator.fill(&mut table);
        for (system, talker) in System::ALL.into_iter().zip(TALKERS) {
            let row = row_of(&*table, system);
            let Some(lines) = lines_that_leave(row, talker) else {
                empty += 1;
                continue;
            };
            stand += 1;
            let mut left = Box::new([0; TABLE]);
            for line in lines {
                longest = longest.max(with_checksum(&line).len());
                let (did, after) = gathered(&line, &left);
                assert_eq!(did, WAITS, "{line}");
                left = after;
            }
            assert_eq!(Row::of(row_of(&*left, system)), Row::of(row));
        }
    }
    println!("{stand} rows stand, {empty} do not");
    assert!(stand > 5_000 && empty > 5_000);
    assert_eq!(longest, 102);
}

/// A row with few satellites does not stand exactly where no cut of them at all
/// gives lines that are short enough.
#[test]
fn no_other_cut_leaves_a_row() {
    let mut generator = TableGenerator::new(3);
    let mut table = Box::new([0; TABLE]);
    let mut seen = [0; 2];
    for _ in 0..4_000 {
        generator.fill(&mut table);
        let row = &table[..ROW];
        let lent = Lent::of(row);
        let is_run = lent == Lent::Run;
        let Some(Row {
            waits_for,
            in_view,
            cells,
            ..
        }) = Row::of(row)
        else {
            continue;
        };
        if !(is_run || lent == Lent::Never(Why::Lines)) || cells.len() > 12 {
            continue;
        }
        assert_eq!(has_cut(in_view, &cells, waits_for - 1), is_run, "{cells:?}");
        seen[usize::from(is_run)] += 1;
    }
    println!("{seen:?}");
    assert!(seen.iter().all(|&count| count > 100), "{seen:?}");
}

/// Whether the satellites go into so many lines, by trying every first line.
fn has_cut(in_view: u32, cells: &[Cell], lines: u32) -> bool {
    if lines == 0 {
        return cells.is_empty();
    }
    (0..=cells.len().min(4)).any(|first| {
        let mut line = format!("GPGSV,9,1,{in_view}");
        for cell in &cells[..first] {
            line += &format!(",{}", cell.satellite);
            for place in cell.places() {
                line += &place.map_or(",".into(), |number| format!(",{number}"));
            }
        }
        // The comma behind the in-view count is there without a satellite too.
        let comma = usize::from(first == 0);
        with_checksum(&line).len() + comma <= 102 && has_cut(in_view, &cells[first..], lines - 1)
    })
}
