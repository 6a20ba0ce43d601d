//! Runs docs/ODD-READINGS.md: each row's sentence through the crate and
//! through our reader, which must answer alike, and as the row says; each log
//! through our program and through the plain gatherer.

mod describe;

use describe::describe;
use oracle::{answer_of, crate_answer, judge, lines::Batch, totals_of, Domain, Log, Ours};

const DOCUMENT: &str = include_str!("../../docs/ODD-READINGS.md");

/// What is odd, the sentence, and what both sides answer.
struct Row {
    what: &'static str,
    sentence: &'static str,
    answer: &'static str,
}

fn rows() -> Vec<Row> {
    DOCUMENT
        .lines()
        .filter(|line| line.starts_with('|'))
        .map(|line| {
            let cells: Vec<&str> = line.trim_matches('|').split('|').map(str::trim).collect();
            let [what, sentence, answer] = cells[..] else {
                panic!("not three cells: {line}")
            };
            Row {
                what,
                sentence: sentence.trim_matches('`'),
                answer,
            }
        })
        // The head of each table and the line under it.
        .filter(|row| row.what != "what" && !row.what.starts_with('-'))
        .collect()
}

#[test]
fn the_document_has_rows() {
    assert!(rows().len() >= 40, "{} rows", rows().len());
}

#[test]
fn every_row_is_what_the_crate_answers() {
    let wrong: Vec<String> = rows()
        .iter()
        .filter_map(|row| {
            let answer = describe(&crate_answer(row.sentence.as_bytes()));
            (answer != row.answer)
                .then(|| format!("| {} | `{}` | {answer} |", row.what, row.sentence))
        })
        .collect();
    assert!(
        wrong.is_empty(),
        "these rows should read\n{}",
        wrong.join("\n")
    );
}

#[test]
fn we_answer_every_row_alike() {
    let lines: Batch = rows().iter().map(|row| row.sentence).collect();
    let ours = Ours::find().expect("our reader");
    let answers = ours.answers(&lines).expect("answers");
    for (line, words) in lines.lines().zip(answers) {
        let answer = answer_of(&words).expect("words of an answer");
        let domain = judge(line, &answer, &crate_answer(line));
        assert_eq!(domain, Ok(Domain::Inside), "{}", line.escape_ascii());
    }
}

/// The text of each block of a kind, in order.
fn blocks(kind: &str) -> Vec<&'static str> {
    DOCUMENT
        .split(&format!("```{kind}\n"))
        .skip(1)
        .map(|rest| rest.split("```").next().expect("a block's end"))
        .collect()
}

/// A log's totals and its groups, a line each.
fn told(log: &[u8]) -> String {
    let log = Log::of(log);
    let totals = log.totals().last().copied().unwrap_or_default();
    let mut told = format!("{totals}\n");
    for (index, group) in log.groups() {
        let line = index + 1;
        let satellites: Vec<String> = group
            .entries
            .iter()
            .map(|entry| entry.satellite.to_string())
            .collect();
        told += &format!(
            "at line {line}: {:?}, {} lines, {} in view: satellites {}\n",
            group.system,
            group.sentences,
            group.in_view,
            satellites.join(" ")
        );
    }
    told
}

#[test]
fn every_log_has_the_totals_and_groups_that_stand_behind_it() {
    let (logs, answers) = (blocks("log"), blocks("text"));
    assert_eq!(logs.len(), answers.len());
    assert!(!logs.is_empty(), "no log");
    for (log, answer) in logs.into_iter().zip(answers) {
        assert_eq!(told(log.as_bytes()), answer, "{log}");
        let printed = totals_of(log.as_bytes()).expect("the program's totals");
        let totals = answer.split_inclusive('\n').next().expect("totals");
        assert_eq!(printed.out, totals, "{log}");
    }
}
