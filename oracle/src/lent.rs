//! What a table that is lent with any words stands for, and what a line does
//! to it, by document 01's words alone.

use crate::{
    expected,
    gatherer::{is_run, Place},
    known::LONGEST,
    table::{row_mut, Cell, Gathered, Row, Table},
    words_of, Answer, Gsv, Words,
};

/// The most sentences that a group has.
const SENTENCES: u32 = 9;

/// The most entries that a line has.
const ENTRIES: usize = 4;

/// What a row stands for.
#[derive(Clone, Copy, Debug, PartialEq, Eq, PartialOrd, Ord)]
pub enum Lent {
    /// It says itself that no run stands.
    Nothing,
    /// Some accepted lines leave it.
    Run,
    /// No lines do, for this reason: the row counts as empty.
    Never(Why),
}

/// Why no lines leave a row.
#[derive(Clone, Copy, Debug, PartialEq, Eq, PartialOrd, Ord)]
pub enum Why {
    /// No group has so many sentences, or waits for such a number.
    Sentences,
    /// No line has so many satellites in view.
    InView,
    /// More satellites than cells.
    Count,
    /// No line has such a number of a satellite.
    Number,
    /// The satellites need more lines than have come.
    Lines,
}

impl Lent {
    /// What the words of a row stand for.
    pub fn of(words: &[u32]) -> Self {
        Lent::with_lines_of(words, LONGEST)
    }

    /// The same if the longest line had this length.
    pub fn with_lines_of(words: &[u32], longest: usize) -> Self {
        let (sentences, waits_for, in_view) = (words[0], words[1], words[2]);
        if waits_for == 0 {
            return Lent::Nothing;
        }
        if sentences > SENTENCES || !(2..=sentences).contains(&waits_for) {
            return Lent::Never(Why::Sentences);
        }
        if in_view > u16::MAX.into() {
            return Lent::Never(Why::InView);
        }
        let Some(Row { cells, .. }) = Row::of(words) else {
            return Lent::Never(Why::Count);
        };
        let can_be_read = |number: u32| i32::try_from(number).is_ok();
        let places = cells.iter().flat_map(Cell::places).flatten();
        if !places.into_iter().all(can_be_read) {
            return Lent::Never(Why::Number);
        }
        match cuts(in_view, &cells, longest) {
            Some(cuts) if cuts.len() < waits_for as usize => Lent::Run,
            _ => Lent::Never(Why::Lines),
        }
    }
}

/// Where the satellites are cut into lines, so that there are as few as can be:
/// for each line the satellites before its end. None if one needs a longer line.
/// Of all ways to end the last line the best is kept, for each count of
/// satellites in turn.
fn cuts(in_view: u32, cells: &[Cell], longest: usize) -> Option<Vec<usize>> {
    let sizes: Vec<usize> = cells.iter().map(size).collect();
    let mut fewest: Vec<Option<(usize, usize)>> = vec![Some((0, 0))];
    for end in 1..=cells.len() {
        let last_lines = (end.saturating_sub(ENTRIES)..end)
            .filter(|&start| length(in_view, &sizes[start..end]) <= longest)
            .filter_map(|start| fewest[start].map(|(lines, _)| (lines + 1, start)));
        fewest.push(last_lines.min());
    }
    let mut cuts = vec![];
    let mut end = cells.len();
    while end > 0 {
        cuts.push(end);
        (_, end) = fewest[end]?;
    }
    cuts.reverse();
    Some(cuts)
}

/// The bytes of the shortest line with entries of these sizes, as
/// `$GPGSV,2,1,8,1,2,3,4,5,6,7,8*hh`: one digit says how many sentences there
/// are, and one which this is.
fn length(in_view: u32, entries: &[usize]) -> usize {
    let commas_between = entries.len().saturating_sub(1);
    "$GPGSV,2,1,".len()
        + digits(in_view)
        + ",".len()
        + entries.iter().sum::<usize>()
        + commas_between
        + "*hh".len()
}

/// The bytes of an entry, without a comma behind it.
fn size(cell: &Cell) -> usize {
    let places = cell.places().map(|place| place.map_or(0, digits));
    digits(cell.satellite) + places.iter().sum::<usize>() + 3
}

fn digits(number: u32) -> usize {
    number.checked_ilog10().map_or(1, |log| log as usize + 1)
}

/// The bodies of lines that leave the row, under a talker; none where there are
/// no such lines.
pub fn lines_that_leave(words: &[u32], talker: &str) -> Option<Vec<String>> {
    if Lent::of(words) != Lent::Run {
        return None;
    }
    let Row {
        sentences,
        waits_for,
        in_view,
        cells,
    } = Row::of(words)?;
    let ends = cuts(in_view, &cells, LONGEST)?;
    let mut start = 0;
    let line = |number: u32| {
        // Where fewer lines have all satellites, the others come without any.
        let end = ends.get(number as usize - 1).copied();
        let end = end.unwrap_or(cells.len());
        let entries: Vec<String> = cells[start..end].iter().map(text).collect();
        start = end;
        let entries = entries.join(",");
        format!("{talker}GSV,{sentences},{number},{in_view},{entries}")
    };
    Some((1..waits_for).map(line).collect())
}

fn text(cell: &Cell) -> String {
    let [elevation, azimuth, signal] = cell
        .places()
        .map(|place| place.map_or(String::new(), |number| number.to_string()));
    format!("{},{elevation},{azimuth},{signal}", cell.satellite)
}

/// Takes a line: what is answered to it, and what it does to the table.
pub fn plain_gather(line: &[u8], table: &mut Table) -> (Words, Gathered) {
    let answer = expected(line);
    let words = words_of(&answer);
    let Answer::Gsv(record) = &answer.answer else {
        return (words, Gathered::NoGsv);
    };
    let row = row_mut(table, record.system);
    let entries = answer.exact.entries.into_iter().flatten();
    let cells = entries.map(Cell::from).collect();
    (words, follow(row, record, cells))
}

/// Has a row follow an accepted line of its system.
fn follow(row: &mut [u32], record: &Gsv, more: Vec<Cell>) -> Gathered {
    let mut lines = lines_before(row);
    lines.push(Place::of(record));
    let run = lines.len().saturating_sub(record.number.into());
    if !is_run(&lines[run..]) {
        row[1] = 0;
        return Gathered::NoRun;
    }
    let mut cells = match record.number {
        1 => vec![],
        _ => Row::of(row).expect("a row that stands").cells,
    };
    cells.extend(more);
    let is_last = record.number == record.sentences;
    let waits_for = if is_last { 0 } else { record.number + 1 };
    let followed = Row {
        sentences: record.sentences.into(),
        waits_for: waits_for.into(),
        in_view: record.in_view.into(),
        cells,
    };
    followed.put(row);
    match is_last {
        true => Gathered::Group(record.system),
        false => Gathered::Waits,
    }
}

/// The lines that left a row; none if it counts as empty.
fn lines_before(row: &[u32]) -> Vec<Place> {
    if Lent::of(row) != Lent::Run {
        return vec![];
    }
    // A row that stands has numbers that a line can have.
    let number = |word: u32| word as u16;
    (1..number(row[1]))
        .map(|line| Place {
            sentences: number(row[0]),
            number: line,
            in_view: number(row[2]),
        })
        .collect()
}
