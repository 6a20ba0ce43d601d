//! Runs the commands of docs/TRUST.md that have a count, or the word
//! `nothing`, behind them, and holds what they print to that.

mod repository;

use std::process::Command;

use repository::{read, root};

/// The lines of the blocks of commands.
fn commands(document: &str) -> Vec<&str> {
    document
        .split("```sh\n")
        .skip(1)
        .flat_map(|rest| rest.split("```").next().unwrap_or_default().lines())
        .collect()
}

/// A command, and what it has to print.
fn held(line: &str) -> Option<(&str, &str)> {
    let (command, comment) = line.rsplit_once(" # ")?;
    let expected = comment.trim();
    match expected {
        "nothing" => Some((command.trim(), "")),
        _ => expected
            .bytes()
            .all(|byte| byte.is_ascii_digit())
            .then_some((command.trim(), expected)),
    }
}

fn printed(command: &str) -> String {
    let output = Command::new("bash")
        .args(["-c", command])
        .current_dir(root())
        .output()
        .expect("bash");
    assert!(
        output.stderr.is_empty(),
        "{command}\n{}",
        String::from_utf8_lossy(&output.stderr)
    );
    String::from_utf8_lossy(&output.stdout).trim().to_owned()
}

#[test]
fn every_count_is_what_its_command_prints() {
    let document = read("docs/TRUST.md");
    let held: Vec<(&str, &str)> = commands(&document).into_iter().filter_map(held).collect();
    assert!(held.len() > 5, "{} commands with a count", held.len());
    for (command, expected) in held {
        assert_eq!(printed(command), expected, "docs/TRUST.md: {command}");
    }
}

#[test]
fn a_count_that_is_not_so_would_show() {
    assert_eq!(held("ls   # 3"), Some(("ls", "3")));
    assert_eq!(held("ls   # nothing"), Some(("ls", "")));
    assert_eq!(held("ls   # three files"), None);
    assert_eq!(held("ls"), None);
    assert_eq!(printed("printf 'a\nb\n' | wc -l"), "2");
}
