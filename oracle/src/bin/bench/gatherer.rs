//! A plain gatherer over the crate's records, as a tool would write it from
//! document 01: a run for each system, and the groups stored in a list.

use nmea::{sentences::GsvData, Satellite};

/// The most sentences that a group has.
const LONGEST: u16 = 9;

/// A group, or the run that may become one.
pub struct Group {
    pub sentences: u16,
    pub in_view: u16,
    pub satellites: Vec<Satellite>,
}

struct Run {
    next: u16,
    group: Group,
}

#[derive(Default)]
pub struct Gatherer {
    runs: [Option<Run>; 6],
    pub groups: Vec<Group>,
}

impl Gatherer {
    pub fn put(&mut self, line: GsvData) {
        let slot = &mut self.runs[line.gnss_type as usize];
        let run = match slot.take() {
            _ if line.sentence_num == 1 => {
                if !(1..=LONGEST).contains(&line.number_of_sentences) {
                    return;
                }
                Some(Run {
                    next: 1,
                    group: Group {
                        sentences: line.number_of_sentences,
                        in_view: line.sats_in_view,
                        satellites: Vec::new(),
                    },
                })
            }
            Some(run)
                if run.next == line.sentence_num
                    && run.group.sentences == line.number_of_sentences
                    && run.group.in_view == line.sats_in_view =>
            {
                Some(run)
            }
            _ => None,
        };
        let Some(mut run) = run else { return };
        run.group
            .satellites
            .extend(line.sats_info.into_iter().flatten());
        if line.sentence_num == line.number_of_sentences {
            self.groups.push(run.group);
        } else {
            run.next += 1;
            *slot = Some(run);
        }
    }
}
