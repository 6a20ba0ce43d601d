//! Compares our gatherer with the plain one over tables that are lent with any
//! words: `lent [--tables N] [--seed S]`. The last line counts all; the code is
//! 0 if no word differs, 1 if one does, and 2 if the tables are too few to meet
//! every kind of row.

use std::process::ExitCode;

#[cfg(not(target_arch = "x86_64"))]
fn main() -> ExitCode {
    eprintln!("lent: our reader is compiled for x86-64 alone");
    ExitCode::from(2)
}

#[cfg(target_arch = "x86_64")]
fn main() -> ExitCode {
    let Some((tables, seed)) = numbers() else {
        eprintln!("usage: lent [--tables N] [--seed S]");
        return ExitCode::from(2);
    };
    match oracle::compare_tables(oracle::linked_gather, tables, seed) {
        Ok(report) => {
            println!("{report}");
            let missed = report.missed();
            if missed.is_empty() {
                return ExitCode::SUCCESS;
            }
            eprintln!("lent: not met: {}", missed.join("; "));
            ExitCode::from(2)
        }
        Err(difference) => {
            println!("{difference}");
            ExitCode::FAILURE
        }
    }
}

/// How many tables, and of which seed.
#[cfg(target_arch = "x86_64")]
fn numbers() -> Option<(u64, u64)> {
    let (mut tables, mut seed) = (200_000, 1);
    let mut words = std::env::args().skip(1);
    while let Some(word) = words.next() {
        let number = words.next()?.parse().ok()?;
        match word.as_str() {
            "--tables" => tables = number,
            "--seed" => seed = number,
            _ => return None,
        }
    }
    Some((tables, seed))
}
