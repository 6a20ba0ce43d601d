//! What logs have, counted.

use std::{cmp::Ordering, collections::BTreeMap};

use proved_nmea::{refusal_number, Answer, Group, Line, Refusal, Sentence, System, TypeName};

/// Counts over all lines of a run.
#[derive(Default)]
pub struct Summary {
    /// Accepted lines, by their type.
    pub types: BTreeMap<TypeName, u64>,
    /// Refused lines, by number and name.
    pub refusals: BTreeMap<(u32, &'static str), u64>,
    pub systems: BTreeMap<System, Counts>,
    /// GSV lines that are in no group.
    pub ungrouped: u64,
    /// Groups with fewer entries than in view, and with more.
    pub fewer: u64,
    pub more: u64,
    /// Accepted lines with bytes after their checksum, and those of them in
    /// which a sentence stands there that would be accepted alone. It is not read.
    pub trailing: u64,
    pub glued: u64,
}

/// The lines and groups of one system.
#[derive(Default)]
pub struct Counts {
    pub gsv: u64,
    pub gsa: u64,
    pub groups: u64,
}

impl Summary {
    pub fn add(&mut self, line: &Line) {
        let sentence = match line.answer() {
            Answer::Sentence(sentence) => sentence,
            Answer::Refused(refusal) => return self.add_refusal(&refusal),
            Answer::Blank => return,
        };
        *self.types.entry(sentence.type_name()).or_default() += 1;
        match sentence {
            Sentence::Gsv(list) => {
                self.system(list.system).gsv += 1;
                self.ungrouped += 1;
            }
            Sentence::Gsa(fix) => {
                if let Some(system) = fix.system {
                    self.system(system).gsa += 1;
                }
            }
            _ => {}
        }
        if let Some(group) = line.group() {
            self.add_group(&group);
        }
        let rest = after_checksum(line.bytes());
        self.trailing += u64::from(!rest.is_empty());
        self.glued += u64::from(has_sentence(rest));
    }

    fn add_refusal(&mut self, refusal: &Refusal) {
        let key = (refusal.number(), refusal.name());
        *self.refusals.entry(key).or_default() += 1;
    }

    fn add_group(&mut self, group: &Group) {
        self.system(group.system).groups += 1;
        // No line is in two groups.
        self.ungrouped -= group.lines.len() as u64;
        match group.entries.len().cmp(&usize::from(group.in_view)) {
            Ordering::Less => self.fewer += 1,
            Ordering::Equal => {}
            Ordering::Greater => self.more += 1,
        }
    }

    fn system(&mut self, system: System) -> &mut Counts {
        self.systems.entry(system).or_default()
    }

    /// The summary as text, a line each.
    pub fn lines(&self) -> Vec<String> {
        let mut lines = vec![];
        for (name, count) in &self.types {
            lines.push(format!("type {name} {count}"));
        }
        for ((number, name), count) in &self.refusals {
            lines.push(format!("refused {number} {name} {count}"));
        }
        for (system, Counts { gsv, gsa, groups }) in &self.systems {
            lines.push(format!(
                "system {system} gsv {gsv} gsa {gsa} groups {groups}"
            ));
        }
        lines.push(format!("gsv in no group {}", self.ungrouped));
        lines.push(format!(
            "groups with fewer entries than in view {}",
            self.fewer
        ));
        lines.push(format!(
            "groups with more entries than in view {}",
            self.more
        ));
        lines.push(format!("bytes after the checksum {}", self.trailing));
        lines.push(format!("a sentence after the checksum {}", self.glued));
        lines
    }
}

/// What stands behind the checksum of an accepted line: the scope ignores it.
pub fn after_checksum(line: &[u8]) -> &[u8] {
    // `$`, talker, type and comma are seven bytes; the checksum follows the first star behind them.
    let data = line.get(7..).unwrap_or_default();
    let star = data.iter().position(|&byte| byte == b'*');
    star.and_then(|star| data.get(star + 3..))
        .unwrap_or_default()
}

/// Whether a sentence stands in these bytes that would be accepted as a line.
fn has_sentence(bytes: &[u8]) -> bool {
    let mut places = (0..bytes.len()).filter(|&at| bytes[at] == b'$');
    places.any(|at| refusal_number(&bytes[at..]) == 0)
}
