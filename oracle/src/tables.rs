//! Our gatherer beside the plain one, over tables that are lent with any words.

use std::{collections::BTreeMap, fmt};

use crate::{
    known::LONGEST, lines::TableGenerator, linked_row, plain_gather, row_of, row_read,
    words::WORDS, Gathered, Lent, Row, System, Table, Why, Words, DONE, GROUP, NO_GSV, NO_RUN,
    ROWS, ROW_WORDS, TABLE, UNDONE, WAITS,
};

/// The lines that a table is given, at most.
const LINES: u64 = 6;

/// What a comparison met.
#[derive(Clone, Debug, Default, PartialEq, Eq)]
pub struct TablesReport {
    pub tables: u64,
    pub calls: u64,
    /// The lines, by what they did.
    pub did: BTreeMap<Did, u64>,
    /// The accepted GSV lines by what their row stands for, and of these the
    /// lines whose counts are those of the row: they go on with it if it stands.
    pub met: BTreeMap<Lent, [u64; 2]>,
    /// Of the last, the rows that stand and would not if a line had 101 bytes
    /// at most, and those that do not and would with 103.
    pub by_a_byte: [u64; 2],
}

/// What a line did.
#[derive(Clone, Copy, Debug, PartialEq, Eq, PartialOrd, Ord)]
pub enum Did {
    Refused,
    OtherType,
    NoRun,
    Waits,
    /// The group of this row.
    Group(usize),
}

/// A gatherer as it is exported: a line, words to write and a table.
pub type Gather = fn(&[u8], &mut [u64], &mut [u32]) -> u32;

/// Compares a gatherer with the plain one on some tables of a seed, after every
/// line each word of the table and of the answer, and at last each row as it is
/// read. The first difference is an error.
pub fn compare_tables(gather: Gather, tables: u64, seed: u64) -> Result<TablesReport, String> {
    let mut generator = TableGenerator::new(seed);
    let mut report = TablesReport::default();
    let mut plain: Box<Table> = Box::new([0; TABLE]);
    // Each stands on the heap alone, so that a memory checker sees what is read or written beyond it.
    let mut ours: Box<[u32]> = vec![0; TABLE].into();
    let mut words: Box<[u64]> = vec![0; WORDS].into();
    for number in 0..tables {
        generator.fill(&mut plain);
        ours.copy_from_slice(&*plain);
        for _ in 0..=number % LINES {
            let line = generator.line(&plain).to_vec();
            let before = plain.clone();
            let (plain_words, plain_did) = plain_gather(&line, &mut plain);
            words.fill(u64::MAX);
            let did = gather(&line, &mut words, &mut ours);
            let tell = |what: &str| {
                let line = line.escape_ascii();
                Err(format!(
                    "table {number} of seed {seed}, line \"{line}\": {what}"
                ))
            };
            if Gathered::of(did) != Some(plain_did) {
                return tell(&format!(
                    "ours answers {did}, the plain gatherer {plain_did:?}"
                ));
            }
            if *words != plain_words {
                return tell("the answers differ");
            }
            if let Some(at) = (0..TABLE).find(|&at| ours[at] != plain[at]) {
                let (was, ours, plain) = (before[at], ours[at], plain[at]);
                return tell(&format!("word {at} was {was}, is {ours}, expected {plain}"));
            }
            report.count(&before, plain_did, &plain_words);
        }
        for system in System::ALL {
            if let Err(what) = same_row(&ours, system) {
                return Err(format!("table {number} of seed {seed}, {system:?}: {what}"));
            }
        }
        report.tables += 1;
    }
    Ok(report)
}

/// Holds a row as our side reads it to what its words say.
fn same_row(table: &[u32], system: System) -> Result<(), String> {
    let mut words: Box<[u64]> = vec![u64::MAX; ROW_WORDS].into();
    let read = linked_row(table, system as usize, &mut words);
    let is_same = match Row::of(row_of(table, system)) {
        Some(row) => read == DONE && row_read(&words)? == (system, row),
        None => read == UNDONE && words.iter().all(|&word| word == u64::MAX),
    };
    match is_same {
        true => Ok(()),
        false => Err(format!("the row is read otherwise, and answered {read}")),
    }
}

impl TablesReport {
    fn count(&mut self, table: &Table, did: Gathered, words: &Words) {
        self.calls += 1;
        let did = match did {
            Gathered::NoGsv if words[0] == 5 => Did::Refused,
            Gathered::NoGsv => Did::OtherType,
            Gathered::NoRun => Did::NoRun,
            Gathered::Waits => Did::Waits,
            Gathered::Group(system) => Did::Group(system as usize),
        };
        *self.did.entry(did).or_default() += 1;
        let [3, _, _, system, counts @ ..] = words else {
            return;
        };
        let row = row_of(table, System::ALL[*system as usize - 1]);
        let lent = Lent::of(row);
        let met = self.met.entry(lent).or_default();
        met[0] += 1;
        let goes_on = counts.iter().zip(&row[..3]).all(|(&a, &b)| a == b.into());
        if !goes_on {
            return;
        }
        met[1] += 1;
        let or_not = |longest| lent != Lent::with_lines_of(row, longest);
        match lent {
            Lent::Run => self.by_a_byte[0] += u64::from(or_not(LONGEST - 1)),
            _ => self.by_a_byte[1] += u64::from(or_not(LONGEST + 1)),
        }
    }

    /// What a comparison has to meet and this one did not.
    pub fn missed(&self) -> Vec<String> {
        let mut missed = vec![];
        let did = [Did::Refused, Did::OtherType, Did::NoRun, Did::Waits];
        for did in did.into_iter().chain((0..ROWS).map(Did::Group)) {
            if !self.did.contains_key(&did) {
                missed.push(did.to_string());
            }
        }
        for lent in KINDS {
            let [met, goes_on] = self.met.get(&lent).copied().unwrap_or_default();
            // No line has an in-view count that no line has.
            if met == 0 || (goes_on == 0 && lent != Lent::Never(Why::InView)) {
                missed.push(lent.to_string());
            }
        }
        if self.by_a_byte.contains(&0) {
            missed.push("rows that stand, or do not, by a byte".into());
        }
        missed
    }
}

/// What rows stand for.
const KINDS: [Lent; 7] = [
    Lent::Nothing,
    Lent::Run,
    Lent::Never(Why::Sentences),
    Lent::Never(Why::InView),
    Lent::Never(Why::Count),
    Lent::Never(Why::Number),
    Lent::Never(Why::Lines),
];

impl fmt::Display for Lent {
    fn fmt(&self, f: &mut fmt::Formatter) -> fmt::Result {
        f.write_str(match self {
            Lent::Nothing => "waits for none",
            Lent::Run => "stands",
            Lent::Never(Why::Sentences) => "never: sentences, or the number waited for",
            Lent::Never(Why::InView) => "never: in view",
            Lent::Never(Why::Count) => "never: more satellites than cells",
            Lent::Never(Why::Number) => "never: a number that no line has",
            Lent::Never(Why::Lines) => "never: needs more lines than came",
        })
    }
}

impl fmt::Display for Did {
    fn fmt(&self, f: &mut fmt::Formatter) -> fmt::Result {
        match self {
            Did::Refused => write!(f, "{NO_GSV}, refused"),
            Did::OtherType => write!(f, "{NO_GSV}, of another type"),
            Did::NoRun => write!(f, "{NO_RUN}, no run"),
            Did::Waits => write!(f, "{WAITS}, waits"),
            Did::Group(row) => {
                let (number, system) = (GROUP + *row as u32, System::ALL[*row]);
                write!(f, "{number}, a group of {system:?}")
            }
        }
    }
}

impl fmt::Display for TablesReport {
    fn fmt(&self, f: &mut fmt::Formatter) -> fmt::Result {
        writeln!(f, "lines, by what is answered:")?;
        for (did, count) in &self.did {
            writeln!(f, "{count:>11}  {did}")?;
        }
        writeln!(
            f,
            "accepted GSV lines by their row, and of these with its counts:"
        )?;
        for (lent, [met, goes_on]) in &self.met {
            writeln!(f, "{met:>11}{goes_on:>11}  {lent}")?;
        }
        let [stands, never] = self.by_a_byte;
        writeln!(
            f,
            "{stands:>22}  stands, and would not with 101 bytes a line"
        )?;
        writeln!(
            f,
            "{never:>22}  never, and would stand with 103 bytes a line"
        )?;
        let TablesReport { tables, calls, .. } = self;
        write!(f, "compared {tables} tables, {calls} lines, 0 differ")
    }
}
