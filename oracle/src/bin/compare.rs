//! Compares our proved reader with the crate nmea 0.8.0. `--help` says how.

use std::{env, process::ExitCode, time::Duration};

use oracle::{compare, Amount, Ours, Plan};

const USAGE: &str = "\
usage: compare [--lines N | --seconds S] [--seed S] [--sample N | --exhaustive]

Compares our proved reader with the crate nmea 0.8.0, on two threads: the worked
lines, the lines of the logs, lists of what is small enough to be tried whole, and
lines generated from a seed. The first difference ends it, and is shrunk and printed.

  --lines N      generates N lines (200000 if neither is given)
  --seconds S    generates lines until S seconds after the start
  --seed S       generates other lines (1 if it is not given)
  --sample N     takes N lines of each list, spread over it (100000 if it is not given)
  --exhaustive   takes every line of each list, however long that takes
  --help         prints this

The variable NMEA_CORPUS names another folder of logs, and NMEA_ANSWERS a command
line: that program is asked over a pipe then, and not the reader linked in here.

The last line of the report counts all. The code is 0 if no line differs, 1 if one
does, and 2 if the comparison could not be made.";

fn main() -> ExitCode {
    if env::args().skip(1).any(|word| word == "--help") {
        println!("{USAGE}");
        return ExitCode::SUCCESS;
    }
    let result = plan().and_then(|plan| {
        let ours = Ours::find()?;
        compare(&ours, plan).map_err(|error| error.to_string())
    });
    match result {
        Ok(report) => {
            println!("{report}");
            ExitCode::from(u8::from(report.difference.is_some()))
        }
        Err(why) => {
            eprintln!("compare: {why}");
            ExitCode::from(2)
        }
    }
}

/// What the words of the command line ask for.
fn plan() -> Result<Plan, String> {
    let mut plan = Plan {
        sample: 100_000,
        generated: Amount::Lines(200_000),
        seed: 1,
    };
    let mut words = env::args().skip(1);
    while let Some(word) = words.next() {
        if word == "--exhaustive" {
            plan.sample = u64::MAX;
            continue;
        }
        let number = words.next().and_then(|number| number.parse().ok());
        match (word.as_str(), number) {
            ("--lines", Some(lines)) => plan.generated = Amount::Lines(lines),
            ("--seconds", Some(seconds)) => {
                plan.generated = Amount::Time(Duration::from_secs(seconds));
            }
            ("--seed", Some(seed)) => plan.seed = seed,
            ("--sample", Some(sample)) => plan.sample = sample,
            _ => return Err(format!("{word:?} is not understood\n\n{USAGE}")),
        }
    }
    Ok(plan)
}
