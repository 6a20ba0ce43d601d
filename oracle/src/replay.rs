//! A fixed list of lines with the answers that they must have, for a program
//! that has only bytes to read.

use std::{collections::HashSet, fmt::Write as _};

use crate::{
    answer::Class,
    crate_answer, expected,
    lines::{comment_lines, exhaustive_parts, worked_lines, Batch, Generator},
    with_checksum, words_of, Answer, KNOWN_TYPES,
};

/// The sentences of docs/DIFFERENCES.md.
const DIFFERENCES: &str = include_str!("../../docs/DIFFERENCES.md");

/// How many lines of each list that can be tried whole.
const OF_EACH_LIST: u64 = 40;

/// How many generated lines of each pair of classes, ours and the crate's; of
/// records that both read, which have the most parts, twice as many.
const OF_EACH_PAIR: usize = 90;

/// How many generated lines are looked at.
const LOOKED_AT: usize = 500_000;

/// The lines of a replay, in their order.
pub struct Replay {
    pub seed: u64,
    pub lines: Vec<Vec<u8>>,
}

impl Replay {
    /// The lines of a seed: the worked ones, those of docs/DIFFERENCES.md, some
    /// of each list, and as many generated ones of each pair of classes.
    pub fn of_seed(seed: u64) -> Self {
        // Sentences that others wrote are left out.
        let mut seen: HashSet<Vec<u8>> = comment_lines().into_iter().collect();
        let mut lines = fixed_lines();
        lines.retain(|line| seen.insert(line.clone()));

        let mut counts = [[0; Class::COUNT]; Class::COUNT];
        for line in Generator::new(seed).take(LOOKED_AT) {
            let (ours, theirs) = (expected(&line).answer, crate_answer(&line));
            let most = match ours {
                Answer::Other(_) | Answer::Refused(_) => OF_EACH_PAIR,
                _ => 2 * OF_EACH_PAIR,
            };
            let count = &mut counts[ours.class().index()][theirs.class().index()];
            if *count < most && seen.insert(line.clone()) {
                *count += 1;
                lines.push(line);
            }
        }
        Replay { seed, lines }
    }

    /// The text that the bytes begin with: one line, with its line feed.
    pub fn header(&self) -> String {
        format!(
            "{} lines with the answers of crate nmea 0.8.0, or 5 and 9 by the text alone, made by \
             `oracle/cargo run --release --bin replay -- --seed {}`; of each: its length in two \
             bytes, itself, the 40 words of docs/ABI.md in eight bytes each, low bytes first\n",
            self.lines.len(),
            self.seed,
        )
    }

    /// The header, and a frame for each line.
    pub fn bytes(&self) -> Vec<u8> {
        let mut bytes = self.header().into_bytes();
        for line in &self.lines {
            bytes.extend_from_slice(&(line.len() as u16).to_le_bytes());
            bytes.extend_from_slice(line);
            for word in words_of(&expected(line)) {
                bytes.extend_from_slice(&word.to_le_bytes());
            }
        }
        bytes
    }

    /// How many lines there are of each pair of classes.
    pub fn summary(&self) -> String {
        let mut tally = crate::Tally::default();
        for line in &self.lines {
            tally.count(expected(line).answer.class(), crate_answer(line).class());
        }
        let mut summary = self.header();
        write!(summary, "{tally}").expect("a string takes all text");
        summary
    }
}

/// The lines that no seed is needed for.
fn fixed_lines() -> Vec<Vec<u8>> {
    let mut lines = worked_lines();
    let quoted = DIFFERENCES.split('`').filter(|text| text.starts_with('$'));
    lines.extend(quoted.map(|text| text.as_bytes().to_vec()));
    let types = nmea::SentenceType::TYPES
        .iter()
        .map(|name| name.as_str())
        .filter(|name| !KNOWN_TYPES.contains(name));
    lines.extend(types.map(|name| with_checksum(&format!("GN{name},")).into_bytes()));
    let mut batch = Batch::default();
    for part in exhaustive_parts() {
        part.fill(0..OF_EACH_LIST, &mut batch);
    }
    lines.extend(batch.lines().map(<[u8]>::to_vec));
    lines
}
