//! Reads a log with the crate nmea 0.8.0 as a tool would, line by line, and
//! prints what it counted: what the benchmark sets beside `transfer`.

use std::{
    env,
    error::Error,
    fs::File,
    io::{BufRead, BufReader},
};

use nmea::parse_bytes;

fn main() -> Result<(), Box<dyn Error>> {
    let file = env::args_os().nth(1).ok_or("usage: plain FILE")?;
    let mut reader = BufReader::with_capacity(1 << 16, File::open(file)?);
    let mut line = vec![];
    let [mut lines, mut blank, mut accepted, mut refused] = [0u64; 4];
    while reader.read_until(b'\n', &mut line)? > 0 {
        lines += 1;
        let text = line.strip_suffix(b"\n").unwrap_or(&line);
        let text = text.strip_suffix(b"\r").unwrap_or(text);
        if text.is_empty() {
            blank += 1;
        } else if parse_bytes(text).is_ok() {
            accepted += 1;
        } else {
            refused += 1;
        }
        line.clear();
    }
    println!("lines {lines} blank {blank} accepted {accepted} refused {refused}");
    Ok(())
}
