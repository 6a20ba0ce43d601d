//! Measures our reader beside the crate nmea 0.8.0, on the lines of the
//! corpus, both in this process and both built for release: `bench [--rounds N]`.
//! Last, two programs over a log of 30 MB, each from its start to its end.
//!
//! Of each class it says the nanoseconds a line, medians of several rounds in
//! which the two sides take turns, and the crate's time over ours. Its last
//! line has the ratios alone. It judges nothing: how fast a machine is no test
//! can know.

#[cfg(not(target_arch = "x86_64"))]
fn main() {
    eprintln!("bench: our reader is compiled for x86-64 alone, so it cannot be measured here");
    std::process::exit(2);
}

#[cfg(target_arch = "x86_64")]
mod gatherer;
#[cfg(target_arch = "x86_64")]
mod measure;
#[cfg(target_arch = "x86_64")]
mod programs;

#[cfg(target_arch = "x86_64")]
fn main() -> std::process::ExitCode {
    match measure::run() {
        Ok(()) => std::process::ExitCode::SUCCESS,
        Err(why) => {
            eprintln!("bench: {why}");
            std::process::ExitCode::from(2)
        }
    }
}
