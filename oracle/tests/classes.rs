//! Runs docs/DIFFERENCES.md against our proved reader: what each row says of
//! our answer.

mod document;

use std::error::Error;

use document::{all_rows, listed_types};
use oracle::{answer_of, lines::Batch, with_checksum, Ours};

/// The classes of our answers to some lines.
fn classes(lines: &Batch) -> Result<Vec<&'static str>, Box<dyn Error>> {
    let mut classes = vec![];
    for words in Ours::find()?.answers(lines)? {
        classes.push(answer_of(&words)?.answer.class().name());
    }
    Ok(classes)
}

#[test]
fn every_row() -> Result<(), Box<dyn Error>> {
    let rows = all_rows();
    assert!(!rows.is_empty());
    let lines: Batch = rows.iter().map(|row| row.sentence).collect();
    for (row, class) in rows.iter().zip(classes(&lines)?) {
        assert_eq!(
            class, row.ours,
            "{}: {}, `{}`, where the crate {}",
            row.sentence, row.class, row.text, row.theirs
        );
    }
    Ok(())
}

#[test]
fn every_type_that_only_the_crate_knows() -> Result<(), Box<dyn Error>> {
    let lines: Batch = listed_types()
        .iter()
        .map(|name| with_checksum(&format!("GN{name},")))
        .collect();
    assert!(!lines.is_empty());
    for (line, class) in lines.lines().zip(classes(&lines)?) {
        assert_eq!(class, "5 UnknownType", "{}", line.escape_ascii());
    }
    Ok(())
}
