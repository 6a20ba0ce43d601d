//! Reads docs/DIFFERENCES.md. Each test that does so uses a part of this.
#![allow(dead_code)]

const DOCUMENT: &str = include_str!("../../../docs/DIFFERENCES.md");

/// The heading over the types that only the crate knows.
pub const TYPES: &str = "Types that the crate knows and we do not";

/// A row of one of the document's tables.
pub struct Row {
    pub class: &'static str,
    /// The decimal's text, or the function of the crate.
    pub text: &'static str,
    pub sentence: &'static str,
    pub ours: &'static str,
    pub theirs: &'static str,
}

/// The document's lines under a heading.
pub fn section(heading: &str) -> impl Iterator<Item = &'static str> + '_ {
    let title = |line: &'static str| {
        line.strip_prefix('#')
            .map(|rest| rest.trim_matches(['#', ' ']))
    };
    DOCUMENT
        .lines()
        .skip_while(move |line| title(line) != Some(heading))
        .skip(1)
        .take_while(move |line| title(line).is_none())
}

/// The rows of the tables in some lines.
pub fn rows(lines: impl Iterator<Item = &'static str>) -> Vec<Row> {
    lines
        .filter(|line| line.starts_with('|'))
        .map(|line| {
            let cells: Vec<&str> = line
                .trim_matches('|')
                .split('|')
                .map(|cell| cell.trim_matches([' ', '`']))
                .collect();
            let [class, text, sentence, ours, theirs] = cells[..] else {
                panic!("not five cells: {line}")
            };
            Row {
                class,
                text,
                sentence,
                ours,
                theirs,
            }
        })
        // The head of each table and the line under it.
        .filter(|row| row.class != "class" && !row.class.starts_with('-'))
        .collect()
}

/// The rows of all tables.
pub fn all_rows() -> Vec<Row> {
    rows(DOCUMENT.lines())
}

/// The list of the types that only the crate knows.
pub fn listed_types() -> Vec<&'static str> {
    section(TYPES)
        .skip_while(|line| !line.starts_with("```"))
        .skip(1)
        .take_while(|line| !line.starts_with("```"))
        .flat_map(str::split_whitespace)
        .collect()
}
