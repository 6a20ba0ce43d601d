//! The list of lines and answers in crates/replay/stdin.

use std::{collections::HashSet, error::Error};

use oracle::{
    answer_of, expected,
    lines::{corpus_lines, Batch},
    Class, Ours, Replay, Words,
};

const FILE: &[u8] = include_bytes!("../../crates/replay/stdin");
const SEED: u64 = 1;

/// The header's text and the frames behind it, read back.
fn read() -> (String, Vec<(&'static [u8], Words)>) {
    let end = FILE
        .iter()
        .position(|&byte| byte == b'\n')
        .expect("a line feed");
    let header = String::from_utf8(FILE[..end].to_vec()).expect("text");
    let mut rest = &FILE[end + 1..];
    let mut take = |count: usize| {
        let (taken, behind) = rest.split_at_checked(count)?;
        rest = behind;
        Some(taken)
    };
    let mut frames = vec![];
    while let Some(length) = take(2) {
        let length = u16::from_le_bytes([length[0], length[1]]);
        let line = take(length.into()).expect("the line");
        let words = take(320).expect("the words");
        let mut word = words
            .chunks(8)
            .map(|bytes| u64::from_le_bytes(bytes.try_into().expect("eight bytes")));
        frames.push((
            line,
            std::array::from_fn(|_| word.next().expect("40 words")),
        ));
    }
    (header, frames)
}

#[test]
fn the_file_is_what_its_header_says() {
    let (header, frames) = read();
    assert!(
        header.starts_with(&format!("{} lines ", frames.len())),
        "{header}"
    );
    let command = format!("`oracle/cargo run --release --bin replay -- --seed {SEED}`");
    for part in ["nmea 0.8.0", &command, "docs/ABI.md"] {
        assert!(header.contains(part), "{header}");
    }
    assert!(include_str!("../Cargo.toml").contains(r#"version = "=0.8.0""#));
    assert!(
        Replay::of_seed(SEED).bytes() == FILE,
        "the command makes another file; is it to be made anew?"
    );
}

#[test]
fn every_class_is_there() {
    let (_, frames) = read();
    assert!(frames.len() >= 3_000 && FILE.len() < 1_500_000);
    let mut counts = [0; Class::COUNT];
    for (_, words) in &frames {
        let answer = answer_of(words).expect("words of an answer").answer;
        counts[answer.class().index()] += 1;
    }
    for class in Class::all() {
        let count = counts[class.index()];
        match class.name() {
            // No line has these answers.
            "10 WrongHeader" | "11 BadTime" => assert_eq!(count, 0),
            name => assert!(count >= 90, "{name}: {count}"),
        }
    }
    let lines: HashSet<&[u8]> = frames.iter().map(|(line, _)| *line).collect();
    assert_eq!(lines.len(), frames.len());
}

#[test]
fn the_words_are_the_expected_ones_and_ours() -> Result<(), Box<dyn Error>> {
    let (_, frames) = read();
    let lines: Batch = frames.iter().map(|(line, _)| line).collect();
    for ((line, words), ours) in frames.iter().zip(Ours::find()?.answers(&lines)?) {
        assert_eq!(answer_of(words)?, expected(line), "{}", line.escape_ascii());
        assert_eq!(*words, ours, "{}", line.escape_ascii());
    }
    Ok(())
}

/// The logs are others' work and stay out of the project, but for what
/// document 01 has of its own.
#[test]
fn no_line_of_the_logs_is_there() -> Result<(), Box<dyn Error>> {
    let document = include_str!("../../docs/01-scope.md");
    let logs: HashSet<Vec<u8>> = corpus_lines()?.into_iter().collect();
    for (line, _) in read().1 {
        let is_own = str::from_utf8(line).is_ok_and(|line| document.contains(line));
        assert!(is_own || !logs.contains(line), "{}", line.escape_ascii());
    }
    Ok(())
}
