//! What several of the tests use.
#![allow(dead_code)]

pub mod gatherer;
pub mod json;
pub mod logs;

use std::{
    env, fs,
    io::{BufReader, Read},
    path::PathBuf,
};

use proved_nmea::{
    read, walk, Answer, Gga, Gll, Gsa, Gsv, Kind, Letters, Reader, Rmc, Sentence, Tally, Totals,
    Vtg,
};

use gatherer::{gathered, Handed};

/// The three GSV lines of one group, the first and the third from 01's worked sentences.
pub const GSV_1: &str = "$GPGSV,3,1,11,03,03,111,00,04,15,270,00,06,01,010,00,13,06,292,00*74";
pub const GSV_2: &str = "$GPGSV,3,2,11,14,25,170,00,16,57,208,39,18,67,296,40,19,40,246,00*74";
pub const GSV_3: &str = "$GPGSV,3,3,11,22,42,067,42,24,14,311,43,27,05,244,00,,,,*4D";

/// A GGA, a GLL and a VTG line, from 01's worked sentences.
pub const GGA: &str = "$GPGGA,123519,4807.038,N,01131.324,E,1,08,0.9,545.4,M,46.9,M, , *42";
pub const GLL: &str = "$GPGLL,5130.5,N,00006.0,W,101500.25,A,A*7D";
pub const VTG: &str = "$GPVTG,360.0,T,348.7,M,000.0,N,000.0,K*43";

/// The lines of 01's worked log, and what it has.
pub const WORKED: [&str; 5] = [GSV_1, GSV_2, GSV_3, "", "$GPGSA,A,1,,,,*33"];
pub const WORKED_TOTALS: &str = "lines 5 blank 1 accepted 3 refused 1 groups 1";

/// 01's worked log, each line with that end.
pub fn worked_log(end: &str) -> String {
    WORKED.map(|line| format!("{line}{end}")).concat()
}

/// A sentence from what stands between `$` and `*`.
pub fn with_checksum(body: &str) -> String {
    let sum = body.bytes().fold(0, |sum, byte| sum ^ byte);
    format!("${body}*{sum:02X}")
}

/// Sentences with their checksums, each ended by a line feed.
pub fn log_of(bodies: &[&str]) -> Vec<u8> {
    let lines = bodies.iter().map(|body| with_checksum(body) + "\n");
    lines.collect::<String>().into_bytes()
}

/// The lines of a log, each up to and with its line feed.
pub fn lines_of(log: &[u8]) -> impl Iterator<Item = &[u8]> {
    log.split_inclusive(|&byte| byte == b'\n')
}

/// A line without its line feed, and without one carriage return before that or at the end of the log.
pub fn without_end(line: &[u8]) -> &[u8] {
    let line = line.strip_suffix(b"\n").unwrap_or(line);
    line.strip_suffix(b"\r").unwrap_or(line)
}

/// A name of these bytes.
pub fn letters<const N: usize>(bytes: &[u8; N]) -> Letters<N> {
    Letters::new(*bytes).expect("ASCII")
}

/// The totals and groups of a log, read through a buffer of so many bytes. Each line is held to what `read` says of it
/// alone, the groups to the plain gatherer, the totals to a tally, and to the walk where that takes the log.
pub fn held(log: &[u8], capacity: usize) -> (Totals, Vec<Handed>) {
    let mut reader = Reader::new(BufReader::with_capacity(capacity, log));
    let (totals, groups) = read_all(&mut reader, log);
    assert_eq!(groups, gathered(log), "{}", log.escape_ascii());
    let mut tally = Tally::new();
    for line in lines_of(log) {
        tally.add(line);
    }
    assert_eq!(totals, tally.totals(), "{}", log.escape_ascii());
    if let Ok(walked) = walk(log) {
        assert_eq!(totals, walked, "{}", log.escape_ascii());
    }
    (totals, groups)
}

fn read_all<R: Read>(reader: &mut Reader<BufReader<R>>, log: &[u8]) -> (Totals, Vec<Handed>) {
    let mut groups = vec![];
    for (number, expected) in (1..).zip(lines_of(log).map(without_end)) {
        let line = reader
            .next_line()
            .expect("bytes in memory")
            .expect("a line more");
        assert_eq!(
            (line.number(), line.bytes()),
            (number, expected),
            "{}",
            log.escape_ascii()
        );
        let (answer, kind) = match read(expected) {
            _ if expected.is_empty() => (Answer::Blank, Kind::Blank),
            Err(refusal) => (Answer::Refused(refusal), Kind::Refused),
            Ok(sentence) => {
                let kind = match sentence {
                    Sentence::Rmc(_) => Kind::Rmc,
                    Sentence::Gsa(_) => Kind::Gsa,
                    Sentence::Gsv(_) => Kind::Gsv,
                    Sentence::Gga(_) => Kind::Gga,
                    Sentence::Gll(_) => Kind::Gll,
                    Sentence::Vtg(_) => Kind::Vtg,
                    _ => Kind::Other,
                };
                (Answer::Sentence(sentence), kind)
            }
        };
        assert_eq!((line.answer(), line.kind()), (answer, kind));
        assert_eq!(
            line.refusal(),
            read(expected).err().filter(|_| !expected.is_empty())
        );
        assert_eq!(line.group().is_some(), line.has_group());
        groups.extend(line.group().map(Handed::from));
    }
    assert!(reader.next_line().expect("bytes in memory").is_none());
    (reader.totals(), groups)
}

pub fn rmc(line: &str) -> Rmc {
    match read(line.as_bytes()) {
        Ok(Sentence::Rmc(record)) => record,
        other => panic!("{line} is {other:?}"),
    }
}

pub fn gsa(line: &str) -> Gsa {
    match read(line.as_bytes()) {
        Ok(Sentence::Gsa(record)) => record,
        other => panic!("{line} is {other:?}"),
    }
}

pub fn gsv(line: &str) -> Gsv {
    match read(line.as_bytes()) {
        Ok(Sentence::Gsv(record)) => record,
        other => panic!("{line} is {other:?}"),
    }
}

pub fn gga(line: &str) -> Gga {
    match read(line.as_bytes()) {
        Ok(Sentence::Gga(record)) => record,
        other => panic!("{line} is {other:?}"),
    }
}

pub fn gll(line: &str) -> Gll {
    match read(line.as_bytes()) {
        Ok(Sentence::Gll(record)) => record,
        other => panic!("{line} is {other:?}"),
    }
}

pub fn vtg(line: &str) -> Vtg {
    match read(line.as_bytes()) {
        Ok(Sentence::Vtg(record)) => record,
        other => panic!("{line} is {other:?}"),
    }
}

/// The logs of the corpus, sorted: those of the folder that the variable NMEA_CORPUS
/// names, else of the one beside the repository. None where it is not there.
pub fn corpus() -> Vec<PathBuf> {
    let beside = concat!(env!("CARGO_MANIFEST_DIR"), "/../../shared/corpus");
    let folder = env::var_os("NMEA_CORPUS").unwrap_or_else(|| beside.into());
    let Ok(entries) = fs::read_dir(folder) else {
        return vec![];
    };
    let mut logs: Vec<PathBuf> = entries
        .map(|entry| entry.expect("an entry of the corpus").path())
        .filter(|path| path.extension().is_some_and(|end| end == "nmea"))
        .collect();
    logs.sort();
    logs
}

/// Numbers from a seed, by xorshift64*: the same logs come everywhere.
pub struct Random(u64);

impl Random {
    pub fn new(seed: u64) -> Self {
        // The state may not be 0, and near seeds are to start far apart.
        Random(seed.wrapping_add(1).wrapping_mul(0x9E37_79B9_7F4A_7C15) | 1)
    }

    /// A number below the bound.
    pub fn below(&mut self, bound: usize) -> usize {
        self.0 ^= self.0 >> 12;
        self.0 ^= self.0 << 25;
        self.0 ^= self.0 >> 27;
        // The high bits are the better ones.
        (self.0.wrapping_mul(0x2545_F491_4F6C_DD1D) >> 32) as usize % bound
    }

    pub fn one_in(&mut self, count: usize) -> bool {
        self.below(count) == 0
    }

    pub fn pick<T: Copy>(&mut self, items: &[T]) -> T {
        items[self.below(items.len())]
    }
}
