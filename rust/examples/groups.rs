//! Prints the satellite groups of a log: `cargo run --example groups -- FILE`.

use std::{env, error::Error, fs::File, io::BufReader};

use proved_nmea::Reader;

fn main() -> Result<(), Box<dyn Error>> {
    let path = env::args_os().nth(1).ok_or("name a log")?;
    let mut reader = Reader::new(BufReader::new(File::open(path)?));
    while let Some(line) = reader.next_line()? {
        let Some(group) = line.group() else { continue };
        let satellites: Vec<String> = group
            .entries
            .iter()
            .map(|entry| match entry.signal {
                Some(signal) => format!("{} at {signal} dB-Hz", entry.satellite),
                None => format!("{} not tracked", entry.satellite),
            })
            .collect();
        println!(
            "lines {:?}: {}, {} in view: {}",
            group.lines,
            group.system,
            group.in_view,
            satellites.join(", ")
        );
    }
    Ok(())
}
