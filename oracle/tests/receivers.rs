//! How often the logs of real receivers meet what docs/DIFFERENCES.md lists.

mod document;

use std::{collections::BTreeMap, error::Error};

use document::section;
use oracle::{
    answer_of, crate_answer,
    lines::{corpus, corpus_lines, Batch},
    Answer, Class, Log, Ours, Refusal,
};

const HEADING: &str = "How often real receivers meet them";

/// The types that are read, in the document's order.
const TYPES: [&str; 6] = ["RMC", "GSA", "GSV", "GGA", "GLL", "VTG"];

/// The lines of a block under the heading.
fn stated(block: usize) -> Vec<&'static str> {
    let lines: Vec<&str> = section(HEADING).collect();
    let blocks = lines.split(|line| line.starts_with("```"));
    // Behind each fence that opens a block comes the block.
    blocks
        .skip(1)
        .step_by(2)
        .nth(block)
        .unwrap_or_default()
        .to_vec()
}

/// Lines, and logs that have such a line.
#[derive(Default)]
struct Met {
    lines: usize,
    logs: usize,
    last: Option<usize>,
}

impl Met {
    fn count(&mut self, log: usize) {
        self.lines += 1;
        if self.last.replace(log) != Some(log) {
            self.logs += 1;
        }
    }
}

#[test]
fn the_counts_are_those_of_the_logs() -> Result<(), Box<dyn Error>> {
    let ours = Ours::find()?;
    let logs = corpus()?;
    let mut met: BTreeMap<String, Met> = BTreeMap::new();
    for (i, log) in logs.iter().enumerate() {
        let parts = Log::of(&log.bytes);
        let lines: Batch = parts.lines.iter().copied().collect();
        for (line, words) in lines.lines().zip(ours.answers(&lines)?) {
            let answer = answer_of(&words)?.answer;
            let theirs = crate_answer(line);
            let crate_says = format!("the crate: {}", theirs.class().name());
            if answer != theirs && theirs != Answer::Refused(Refusal::Syntax) {
                println!("{}: {}", log.name, line.escape_ascii());
                let what = format!("{}; {crate_says}", answer.class().name());
                met.entry(what).or_default().count(i);
            }
            met.entry(crate_says).or_default().count(i);
            if matches!(theirs, Answer::Rmc(_) | Answer::Gsa(_)) {
                assert!(!line.contains(&b'-'), "{}", line.escape_ascii());
            }
        }
    }
    // Of what the crate reads, the classes that a difference is of.
    let of_a_difference = |what: &str| met.keys().any(|key| key != what && key.ends_with(what));
    let counts: Vec<String> = met
        .iter()
        .filter(|(what, _)| what.contains(';') || of_a_difference(what))
        .map(|(what, met)| format!("{what}: {} lines of {} logs", met.lines, met.logs))
        .collect();
    assert_eq!(stated(0), counts, "docs/DIFFERENCES.md, \"{HEADING}\"");
    Ok(())
}

#[test]
fn the_lines_of_each_type_that_is_read() -> Result<(), Box<dyn Error>> {
    let ours = Ours::find()?;
    let lines: Batch = corpus_lines()?.into_iter().collect();
    let mut met = [const { BTreeMap::<Class, usize>::new() }; TYPES.len()];
    for (line, words) in lines.lines().zip(ours.answers(&lines)?) {
        let is_of = |name: &&str| line.starts_with(b"$") && line.get(3..6) == Some(name.as_bytes());
        if let Some(index) = TYPES.iter().position(is_of) {
            let class = answer_of(&words)?.answer.class();
            *met[index].entry(class).or_default() += 1;
            // docs/ODD-READINGS.md: none has its speed in km/h alone.
            if TYPES[index] == "VTG" {
                let fields: Vec<&[u8]> = line.split(|&byte| byte == b',').collect();
                assert!(
                    !fields[5].is_empty() || fields.get(7).is_none_or(|field| field.is_empty()),
                    "{}",
                    line.escape_ascii()
                );
            }
        }
    }
    let counts: Vec<String> = TYPES
        .iter()
        .zip(met)
        .map(|(name, met)| {
            let (accepted, refused): (Vec<_>, Vec<_>) =
                met.iter().partition(|(class, _)| class.name() == *name);
            let accepted: usize = accepted.iter().map(|(_, count)| *count).sum();
            let refused: String = refused
                .iter()
                .map(|(class, count)| format!(", {count} refused with {}", class.name()))
                .collect();
            format!("{name}: {accepted} accepted{refused}")
        })
        .collect();
    assert_eq!(stated(1), counts, "docs/DIFFERENCES.md, \"{HEADING}\"");
    Ok(())
}
