//! The programs `compare`, `lent` and `plain`: what they take, print and end with.

use std::{
    io,
    process::{Command, Output},
};

fn compare(words: &[&str]) -> io::Result<Output> {
    command(words).output()
}

fn command(words: &[&str]) -> Command {
    let mut command = Command::new(env!("CARGO_BIN_EXE_compare"));
    command.args(words);
    command
}

fn text(bytes: &[u8]) -> String {
    String::from_utf8_lossy(bytes).into_owned()
}

#[test]
fn a_short_comparison() -> io::Result<()> {
    let output = compare(&["--lines", "1000", "--sample", "100", "--seed", "9"])?;
    let printed = text(&output.stdout);
    assert_eq!(output.status.code(), Some(0), "{printed}");
    let last = printed.lines().last().unwrap_or_default();
    assert!(
        last.starts_with("compared ") && last.ends_with(" 0 differ"),
        "{last}"
    );
    for part in [
        "100  short decimals, of 76543210",
        "100  negative short decimals, of 76543210",
        "100  degrees and signed minutes, of 29241840",
        "100  satellites of GGA, of 300000",
        "100  few digits in GGA and VTG, of 691360",
        "100  short decimals of GGA and VTG, of 76543210",
        "100  negative ones of GGA and VTG, of 76543210",
        "100  speeds in km/h, of 76543210",
        "100  negative speeds in km/h, of 76543210",
        "1000  generated",
    ] {
        assert!(printed.contains(part), "{printed}");
    }
    Ok(())
}

#[test]
fn generated_lines_end_with_their_time() -> io::Result<()> {
    let output = compare(&["--seconds", "0", "--sample", "1"])?;
    let printed = text(&output.stdout);
    assert!(printed.contains(" 0  generated"), "{printed}");
    Ok(())
}

#[test]
fn help() -> io::Result<()> {
    let output = compare(&["--help"])?;
    assert_eq!(output.status.code(), Some(0));
    assert!(text(&output.stdout).contains("--exhaustive"));
    Ok(())
}

#[test]
fn words_that_are_not_understood() -> io::Result<()> {
    for words in [
        &["--line", "5"][..],
        &["--lines"],
        &["--lines", "many"],
        &["5"],
    ] {
        let output = compare(words)?;
        assert_eq!(output.status.code(), Some(2), "{words:?}");
        assert!(text(&output.stderr).contains("usage: "), "{words:?}");
    }
    Ok(())
}

#[test]
fn a_program_that_does_not_answer() -> io::Result<()> {
    for program in ["true", "no-such-program"] {
        let output = command(&["--lines", "10"])
            .env("NMEA_ANSWERS", program)
            .output()?;
        assert_eq!(output.status.code(), Some(2), "{program}");
        assert!(text(&output.stderr).starts_with("compare: "), "{program}");
    }
    Ok(())
}

#[cfg(target_arch = "x86_64")]
#[test]
fn tables() -> io::Result<()> {
    let lent = |words: &[&str]| {
        Command::new(env!("CARGO_BIN_EXE_lent"))
            .args(words)
            .output()
    };
    let output = lent(&["--tables", "5000", "--seed", "3"])?;
    let printed = text(&output.stdout);
    assert_eq!(output.status.code(), Some(0), "{printed}");
    let last = printed.lines().last().unwrap_or_default();
    assert!(
        last.starts_with("compared 5000 tables, ") && last.ends_with(" 0 differ"),
        "{last}"
    );
    // One table does not meet every kind of row.
    let output = lent(&["--tables", "1"])?;
    assert_eq!(output.status.code(), Some(2));
    assert!(text(&output.stderr).starts_with("lent: not met: "));
    for words in [&["--tables"][..], &["--tables", "many"], &["5"]] {
        let output = lent(words)?;
        assert_eq!(output.status.code(), Some(2), "{words:?}");
        assert!(text(&output.stderr).contains("usage: "), "{words:?}");
    }
    Ok(())
}

#[test]
fn a_log_read_with_the_crate_alone() -> io::Result<()> {
    let log = concat!(env!("CARGO_MANIFEST_DIR"), "/../crates/nmea_log/stdin");
    let output = Command::new(env!("CARGO_BIN_EXE_plain"))
        .arg(log)
        .output()?;
    let printed = text(&output.stdout);
    assert_eq!(printed, "lines 5 blank 1 accepted 3 refused 1\n");
    Ok(())
}
