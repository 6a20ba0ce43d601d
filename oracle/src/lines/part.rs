use std::ops::Range;

use super::{Batch, Generator};

/// A prime above the count of every list.
const PRIME: u64 = 2_654_435_761;

/// How many lines are generated from one start.
pub(crate) const BLOCK: u64 = 1000;

/// A part of what both sides are asked: lines in a fixed order.
pub struct Part {
    pub name: &'static str,
    /// How many lines it has.
    pub count: u64,
    fill: Box<Fill>,
}

type Fill = dyn Fn(Range<u64>, &mut Batch) + Send + Sync;

impl Part {
    /// A list whose lines are written by their numbers. Its order is not
    /// theirs: the first lines are spread over the whole list.
    pub fn listed(
        name: &'static str,
        count: u64,
        write: impl Fn(u64, &mut Vec<u8>) + Send + Sync + 'static,
    ) -> Self {
        assert!(count < PRIME, "{name}: {count} lines are too many");
        let fill = move |range: Range<u64>, batch: &mut Batch| {
            for place in range {
                // Each number comes once, as the prime has no factor of the count.
                batch.add(|line| write(place * PRIME % count, line));
            }
        };
        Part {
            name,
            count,
            fill: Box::new(fill),
        }
    }

    /// The given lines.
    pub fn of_lines(name: &'static str, lines: Vec<Vec<u8>>) -> Self {
        Part::listed(name, lines.len() as u64, move |index, line| {
            line.extend_from_slice(&lines[index as usize]);
        })
    }

    /// Lines made from a seed, without end.
    pub fn generated(seed: u64) -> Self {
        let fill = move |range: Range<u64>, batch: &mut Batch| {
            // The same lines come in whatever batches they are asked for.
            for start in range.clone().step_by(BLOCK as usize) {
                let mut generator = Generator::of_block(seed, start);
                for _ in start..range.end.min(start + BLOCK) {
                    batch.push(generator.line());
                }
            }
        };
        Part {
            name: "generated",
            count: u64::MAX,
            fill: Box::new(fill),
        }
    }

    /// Adds the lines of a range to the batch.
    pub fn fill(&self, range: Range<u64>, batch: &mut Batch) {
        (self.fill)(range, batch);
    }
}
