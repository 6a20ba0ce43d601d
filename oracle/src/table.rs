//! A table of runs: its words, and those of a row that is read, by docs/ABI.md.

use crate::{words::Reader, System, WholeEntry, UNDONE};

/// A row for each system.
pub const ROWS: usize = System::ALL.len();

/// The cells of a row: four satellites in each of nine sentences.
pub const CELLS: usize = 36;

/// The words before a row's cells: sentences, the number waited for, in view and count.
const HEAD: usize = 4;

/// The words of a cell.
const CELL: usize = 4;

/// The words of a row.
pub const ROW: usize = HEAD + CELLS * CELL;

/// The words of a table.
pub const TABLE: usize = ROWS * ROW;

/// The words of a row that is read.
pub const ROW_WORDS: usize = 5 + 8 * CELLS;

/// A number of a cell that is absent.
pub const ABSENT: u32 = u32::MAX;

/// A table's words.
pub type Table = [u32; TABLE];

/// A satellite as its cell has it, where any word may stand.
#[derive(Clone, Copy, Debug, PartialEq, Eq)]
pub struct Cell {
    pub satellite: u32,
    pub elevation: Option<u32>,
    pub azimuth: Option<u32>,
    pub signal: Option<u32>,
}

impl Cell {
    /// Elevation, azimuth and signal.
    pub fn places(&self) -> [Option<u32>; 3] {
        [self.elevation, self.azimuth, self.signal]
    }

    fn of(words: &[u32]) -> Self {
        let number = |word: u32| (word != ABSENT).then_some(word);
        Cell {
            satellite: words[0],
            elevation: number(words[1]),
            azimuth: number(words[2]),
            signal: number(words[3]),
        }
    }

    pub(crate) fn words(&self) -> [u32; CELL] {
        let [elevation, azimuth, signal] = self.places().map(|place| place.unwrap_or(ABSENT));
        [self.satellite, elevation, azimuth, signal]
    }
}

impl From<WholeEntry> for Cell {
    fn from(entry: WholeEntry) -> Self {
        let number = |number: i32| u32::try_from(number).expect("a line has no sign");
        Cell {
            satellite: entry.satellite,
            elevation: entry.elevation.map(number),
            azimuth: entry.azimuth.map(number),
            signal: entry.signal.map(number),
        }
    }
}

/// What the words of a row say, whether lines could leave it or not.
#[derive(Clone, Debug, PartialEq, Eq)]
pub struct Row {
    pub sentences: u32,
    /// 0 where no run stands.
    pub waits_for: u32,
    pub in_view: u32,
    pub cells: Vec<Cell>,
}

impl Row {
    /// The row of these words; none if they count more cells than there are.
    pub fn of(words: &[u32]) -> Option<Self> {
        let count = usize::try_from(words[3]).ok()?;
        (count <= CELLS).then(|| Row {
            sentences: words[0],
            waits_for: words[1],
            in_view: words[2],
            cells: words[HEAD..ROW]
                .chunks_exact(CELL)
                .take(count)
                .map(Cell::of)
                .collect(),
        })
    }

    /// Writes it; words behind its cells are left.
    pub fn put(&self, words: &mut [u32]) {
        let count = self.cells.len() as u32;
        words[..HEAD].copy_from_slice(&[self.sentences, self.waits_for, self.in_view, count]);
        for (cell, words) in self.cells.iter().zip(words[HEAD..].chunks_exact_mut(CELL)) {
            words.copy_from_slice(&cell.words());
        }
    }
}

/// The words of a system's row.
pub fn row_of(table: &[u32], system: System) -> &[u32] {
    table.chunks_exact(ROW).nth(system as usize).expect("a row")
}

pub(crate) fn row_mut(table: &mut [u32], system: System) -> &mut [u32] {
    let mut rows = table.chunks_exact_mut(ROW);
    rows.nth(system as usize).expect("a row")
}

/// Reads the words of `nmea_row`. An error names the word that no row has.
pub fn row_read(words: &[u64]) -> Result<(System, Row), String> {
    let mut reader = Reader::new(words);
    let system = reader.system(ROWS)?;
    let (sentences, waits_for, in_view) = (reader.fits()?, reader.fits()?, reader.fits()?);
    let count: usize = reader.fits()?;
    if count > CELLS {
        return Err(reader.unfit("too many satellites"));
    }
    let mut cells = vec![];
    for _ in 0..count {
        let cell = reader.optional(7, |reader| {
            Ok(Cell {
                satellite: reader.fits()?,
                elevation: reader.optional(1, number)?,
                azimuth: reader.optional(1, number)?,
                signal: reader.optional(1, number)?,
            })
        })?;
        cells.push(cell.ok_or_else(|| reader.unfit("a satellite is not there"))?);
    }
    reader.end()?;
    let row = Row {
        sentences,
        waits_for,
        in_view,
        cells,
    };
    Ok((system, row))
}

/// A number that is there, which is not the one that stands for none.
fn number(reader: &mut Reader) -> Result<u32, String> {
    match reader.fits()? {
        ABSENT => Err(reader.unfit("the word of an absent number")),
        number => Ok(number),
    }
}

/// What `nmea_gather` answers to a line that it takes; a row that is a group
/// is answered by its number above the last.
pub const NO_GSV: u32 = 0;
pub const NO_RUN: u32 = 1;
pub const WAITS: u32 = 2;
pub const GROUP: u32 = 3;

/// What a line did to a table.
#[derive(Clone, Copy, Debug, PartialEq, Eq)]
pub enum Gathered {
    /// No accepted GSV line.
    NoGsv,
    /// No run stands behind the line.
    NoRun,
    /// The line's run waits for the next one.
    Waits,
    /// The row of this system is a group.
    Group(System),
}

impl Gathered {
    /// By the number that `nmea_gather` answers, if the line was taken.
    pub fn of(number: u32) -> Option<Self> {
        match number {
            NO_GSV => Some(Gathered::NoGsv),
            NO_RUN => Some(Gathered::NoRun),
            WAITS => Some(Gathered::Waits),
            UNDONE => None,
            _ => {
                let row = usize::try_from(number - GROUP).ok()?;
                System::ALL.get(row).copied().map(Gathered::Group)
            }
        }
    }
}
