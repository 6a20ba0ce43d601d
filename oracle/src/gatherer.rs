//! Groups of satellites by document 01's words alone. Nothing is carried from
//! line to line: what a group is stands here as it is defined.

use crate::{Answer, Entry, Gsv, System};

/// The satellites that one system's sentences list together.
#[derive(Clone, Debug, PartialEq, Eq)]
pub struct Group {
    pub system: System,
    pub sentences: u16,
    pub in_view: u16,
    pub entries: Vec<Entry>,
}

/// The groups in the answers to a log's lines, of which a blank one has none.
/// Each comes with the index of the line that hands it out.
pub(crate) fn groups(answers: &[Option<Answer>]) -> Vec<(usize, Group)> {
    let ends_at = |index: usize| match &answers[index] {
        Some(Answer::Gsv(last)) => group_of(&run_of(&answers[..=index], last), last),
        _ => None,
    };
    (0..answers.len())
        .filter_map(|index| ends_at(index).map(|group| (index, group)))
        .collect()
}

/// The records of the last line's system up to that line, as many as it says
/// that there are in all.
fn run_of<'a>(answers: &'a [Option<Answer>], last: &Gsv) -> Vec<&'a Gsv> {
    let mut run: Vec<&Gsv> = answers
        .iter()
        .rev()
        .filter_map(|answer| match answer {
            Some(Answer::Gsv(record)) if record.system == last.system => Some(record),
            _ => None,
        })
        .take(last.sentences.into())
        .collect();
    run.reverse();
    run
}

/// The group that the run is, if it is one.
fn group_of(run: &[&Gsv], last: &Gsv) -> Option<Group> {
    let places: Vec<Place> = run.iter().map(|&record| Place::of(record)).collect();
    let is_group = is_run(&places) && last.number == last.sentences;
    is_group.then(|| Group {
        system: last.system,
        sentences: last.sentences,
        in_view: last.in_view,
        entries: run
            .iter()
            .flat_map(|record| record.entries.into_iter().flatten())
            .collect(),
    })
}

/// Where a line says that it stands.
#[derive(Clone, Copy, Debug, PartialEq, Eq)]
pub(crate) struct Place {
    pub(crate) sentences: u16,
    pub(crate) number: u16,
    pub(crate) in_view: u16,
}

impl Place {
    pub(crate) fn of(record: &Gsv) -> Self {
        Place {
            sentences: record.sentences,
            number: record.number,
            in_view: record.in_view,
        }
    }
}

/// Whether lines of one system that follow one another are a group's first, or
/// all of them: of 1 to 9 sentences, numbered from 1 on, with equal counts of
/// sentences and of satellites in view.
pub(crate) fn is_run(lines: &[Place]) -> bool {
    let Some(last) = lines.last() else {
        return false;
    };
    let counts = |line: &Place| (line.sentences, line.in_view);
    (1..=9).contains(&last.sentences)
        && last.number <= last.sentences
        && lines.iter().map(|line| line.number).eq(1..=last.number)
        && lines.iter().all(|line| counts(line) == counts(last))
}
