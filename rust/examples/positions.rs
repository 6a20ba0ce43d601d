//! Prints the positions of a log's RMC sentences, exactly: the time in seconds since 1970, latitude and longitude in
//! minutes of arc (below zero where the place lies to the south or west), and the speed in knots.
//! `cargo run --example positions -- FILE`.

use std::{env, error::Error, fs::File, io::BufReader};

use proved_nmea::{Answer, Coordinate, Reader, Sentence};

fn main() -> Result<(), Box<dyn Error>> {
    let path = env::args_os().nth(1).ok_or("name a log")?;
    let mut reader = Reader::new(BufReader::new(File::open(path)?));
    while let Some(line) = reader.next_line()? {
        let Answer::Sentence(Sentence::Rmc(fix)) = line.answer() else {
            continue;
        };
        let (Some(since), Some(position)) = (fix.timestamp(), fix.position) else {
            continue;
        };
        println!(
            "{}.{:09} {} {} {}",
            since.as_secs(),
            since.subsec_nanos(),
            minutes(&position.latitude),
            minutes(&position.longitude),
            fix.speed.map_or("-".into(), |speed| speed.to_string())
        );
    }
    Ok(())
}

/// All nine decimals, as in `-6.000000000`.
fn minutes(coordinate: &Coordinate) -> String {
    let sign = if coordinate.billionths < 0 { "-" } else { "" };
    let size = coordinate.billionths.unsigned_abs();
    let (whole, billionths) = (size / 1_000_000_000, size % 1_000_000_000);
    format!("{sign}{whole}.{billionths:09}")
}
