//! What our proved walk counts in a log: linked into this process, and as the
//! program `nmea_log` prints it.

use std::{
    error::Error,
    fs::File,
    io::Write,
    process::{Output, Stdio},
    thread,
};

use crate::program::Program;

/// What the program printed, and what it said on standard error.
#[derive(Clone, Debug, PartialEq, Eq)]
pub struct Printed {
    pub out: String,
    pub error: String,
}

impl Printed {
    fn of(output: Output) -> Result<Self, Box<dyn Error>> {
        Ok(Printed {
            out: String::from_utf8(output.stdout)?,
            error: String::from_utf8(output.stderr)?,
        })
    }
}

/// The program, given the log's bytes on its standard input.
pub fn totals_of(log: &[u8]) -> Result<Printed, Box<dyn Error>> {
    let mut child = Program::find("nmea_log")?
        .command()
        .stdin(Stdio::piped())
        .stdout(Stdio::piped())
        .stderr(Stdio::piped())
        .spawn()?;
    let mut input = child.stdin.take().ok_or("no pipe to the program")?;
    let log = log.to_vec();
    // The program reads no further than it must, and closes its end then.
    let writer = thread::spawn(move || drop(input.write_all(&log)));
    let output = child.wait_with_output()?;
    writer.join().map_err(|_| "writing the log panicked")?;
    Printed::of(output)
}

/// The program, given an open file (or folder) as its standard input.
pub fn totals_of_file(file: File) -> Result<Printed, Box<dyn Error>> {
    let output = Program::find("nmea_log")?
        .command()
        .stdin(Stdio::from(file))
        .output()?;
    Printed::of(output)
}

/// The totals by the walk that is linked into this process, or the refusal's
/// number. Log and totals stand on the heap alone, as the lines do.
#[cfg(target_arch = "x86_64")]
pub fn linked_totals(log: &[u8]) -> Result<crate::Totals, u32> {
    let log: Box<[u8]> = log.into();
    let mut totals = Box::new([u64::MAX; proved_nmea::abi::TOTALS]);
    match proved_nmea::abi::walk(&log, totals.as_mut_slice()) {
        crate::DONE => {
            let [lines, blank, accepted, refused, groups] = *totals;
            Ok(crate::Totals {
                lines,
                blank,
                accepted,
                refused,
                groups,
            })
        }
        refusal => Err(refusal),
    }
}
