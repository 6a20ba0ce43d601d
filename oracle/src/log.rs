//! Logs, walked by document 01's words alone.

use std::fmt;

use crate::{
    expected,
    gatherer::{groups, Group},
    Answer,
};

/// The longest log.
pub const LONGEST_LOG: usize = 65_536;

/// What a walk over a log counts.
#[derive(Clone, Copy, Debug, Default, PartialEq, Eq)]
pub struct Totals {
    pub lines: u64,
    pub blank: u64,
    pub accepted: u64,
    pub refused: u64,
    pub groups: u64,
}

/// A log's lines, and the answers to them.
#[derive(Clone, Debug)]
pub struct Log<'a> {
    pub lines: Vec<&'a [u8]>,
    /// None of a blank line.
    pub answers: Vec<Option<Answer>>,
}

impl<'a> Log<'a> {
    /// The log with the crate's answers, as far as document 01 has them too.
    pub fn of(log: &'a [u8]) -> Self {
        Log::with_answers(log, |line| expected(line).answer)
    }

    /// The log with the answers that are given.
    pub fn with_answers(log: &'a [u8], answer: impl Fn(&[u8]) -> Answer) -> Self {
        let lines = lines_of(log);
        let answers = lines
            .iter()
            .map(|line| (!line.is_empty()).then(|| answer(line)))
            .collect();
        Log { lines, answers }
    }

    /// The groups, each with the index of the line that hands it out.
    pub fn groups(&self) -> Vec<(usize, Group)> {
        groups(&self.answers)
    }

    /// The totals of the first lines, for each count of lines from 0 on.
    pub fn totals(&self) -> Vec<Totals> {
        let groups = self.groups();
        let mut totals = Totals::default();
        let mut all = vec![totals];
        for (index, answer) in self.answers.iter().enumerate() {
            totals.lines += 1;
            match answer {
                None => totals.blank += 1,
                Some(Answer::Refused(_)) => totals.refused += 1,
                Some(_) => totals.accepted += 1,
            }
            totals.groups += u64::from(groups.iter().any(|&(line, _)| line == index));
            all.push(totals);
        }
        all
    }
}

/// A line ends at a line feed or the end, and one carriage return before that
/// is dropped. An empty last stretch is no line.
fn lines_of(log: &[u8]) -> Vec<&[u8]> {
    stretches(log)
        .map(|line| line.strip_suffix(b"\n").unwrap_or(line))
        .map(|line| line.strip_suffix(b"\r").unwrap_or(line))
        .collect()
}

/// The lines as they stand in the log, each with its line feed.
pub fn stretches(log: &[u8]) -> impl Iterator<Item = &[u8]> {
    log.split_inclusive(|&byte| byte == b'\n')
}

/// The log in pieces that are short enough for one walk, cut behind line feeds.
/// A line that alone is too long is a piece of its own.
pub fn pieces(log: &[u8]) -> Vec<&[u8]> {
    let mut pieces = vec![];
    let (mut start, mut end) = (0, 0);
    for line in stretches(log) {
        if end + line.len() - start > LONGEST_LOG && end > start {
            pieces.push(&log[start..end]);
            start = end;
        }
        end += line.len();
    }
    if end > start {
        pieces.push(&log[start..end]);
    }
    pieces
}

impl fmt::Display for Totals {
    fn fmt(&self, f: &mut fmt::Formatter) -> fmt::Result {
        let Totals {
            lines,
            blank,
            accepted,
            refused,
            groups,
        } = self;
        write!(
            f,
            "lines {lines} blank {blank} accepted {accepted} refused {refused} groups {groups}"
        )
    }
}
