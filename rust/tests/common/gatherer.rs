//! Satellite groups, gathered from GSV sentences by 01's rules in plain Rust: the other opinion beside the proved table.

use proved_nmea::{read, Entry, Group, Gsv, Sentence, System};

use super::{lines_of, without_end};

/// A group as it is handed out, with the numbers of its lines.
#[derive(Clone, Debug, PartialEq)]
pub struct Handed {
    pub lines: Vec<u64>,
    pub system: System,
    pub sentences: u16,
    pub in_view: u16,
    pub entries: Vec<Entry>,
}

impl From<Group> for Handed {
    fn from(group: Group) -> Self {
        Handed {
            lines: group.lines,
            system: group.system,
            sentences: group.sentences,
            in_view: group.in_view,
            entries: group.entries,
        }
    }
}

/// The run that stands, for each system: the group as far as it has come, and the number of the sentence that it waits for.
#[derive(Default)]
pub struct Gatherer {
    rows: [Option<(Handed, u16)>; 6],
}

impl Gatherer {
    /// Takes the log's next accepted GSV sentence, and hands out the group that it completes.
    pub fn put(&mut self, at: u64, line: &Gsv) -> Option<Handed> {
        let row = &mut self.rows[usize::from(line.system.number()) - 1];
        // Whatever does not continue the run breaks it.
        let stood = row.take();
        if line.sentences > 9 || !(1..=line.sentences).contains(&line.number) {
            return None;
        }
        let mut group = match stood {
            // A first sentence starts anew, also where a run stands.
            _ if line.number == 1 => Handed {
                lines: vec![],
                system: line.system,
                sentences: line.sentences,
                in_view: line.in_view,
                entries: vec![],
            },
            Some((group, waited)) => {
                let head = (waited, group.sentences, group.in_view);
                if head != (line.number, line.sentences, line.in_view) {
                    return None;
                }
                group
            }
            None => return None,
        };
        group.lines.push(at);
        group.entries.extend(line.satellites());
        if line.number == line.sentences {
            return Some(group);
        }
        *row = Some((group, line.number + 1));
        None
    }
}

/// The accepted GSV sentences of a log, with the numbers of their lines.
pub fn gsv_lines(log: &[u8]) -> Vec<(u64, Gsv)> {
    (1..)
        .zip(lines_of(log))
        .filter_map(|(at, line)| match read(without_end(line)) {
            Ok(Sentence::Gsv(record)) => Some((at, record)),
            _ => None,
        })
        .collect()
}

/// The groups of a log.
pub fn gathered(log: &[u8]) -> Vec<Handed> {
    let mut gatherer = Gatherer::default();
    gsv_lines(log)
        .iter()
        .filter_map(|(at, record)| gatherer.put(*at, record))
        .collect()
}
