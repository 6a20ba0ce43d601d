//! Writes the list that the program `replay` reads to standard output:
//! `oracle/cargo run --release --bin replay > crates/replay/stdin`. What it
//! holds is said on standard error.

use std::{
    env,
    io::{self, Write},
    process::ExitCode,
};

use oracle::Replay;

fn main() -> ExitCode {
    let words: Vec<String> = env::args().skip(1).collect();
    let seed = match &words[..] {
        [] => Ok(1),
        [word, seed] if word == "--seed" => seed.parse(),
        _ => "".parse(),
    };
    let Ok(seed) = seed else {
        eprintln!("usage: replay [--seed S]");
        return ExitCode::from(2);
    };
    let replay = Replay::of_seed(seed);
    eprintln!("{}", replay.summary());
    match io::stdout().write_all(&replay.bytes()) {
        Ok(()) => ExitCode::SUCCESS,
        Err(error) => {
            eprintln!("replay: {error}");
            ExitCode::from(2)
        }
    }
}
