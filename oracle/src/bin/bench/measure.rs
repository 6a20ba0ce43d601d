use std::{env, error::Error, hint::black_box, time::Instant};

use nmea::{parse_bytes, ParseResult};
use oracle::lines::{corpus, corpus_lines};
use proved_nmea::abi;

use crate::{gatherer::Gatherer, programs::Programs};

/// The longest log that our walk takes.
const LONGEST_LOG: usize = 65_536;

/// A round of one side goes over its lines until so many were read.
const LINES_A_ROUND: usize = 40_000;

/// The classes of lines: the types that are read, and the others.
const CLASSES: [&str; 8] = ["rmc", "gsa", "gsv", "gga", "gll", "vtg", "other", "refused"];

pub fn run() -> Result<(), Box<dyn Error>> {
    let rounds = rounds()?;
    let lines: Vec<Vec<u8>> = corpus_lines()?
        .into_iter()
        .filter(|line| !line.is_empty())
        .collect();
    let of = |class: &str| -> Vec<&[u8]> {
        lines
            .iter()
            .map(Vec::as_slice)
            .filter(|line| class_of(line) == class)
            .collect()
    };

    println!("nanoseconds a line; the floor is one pass that finds the line feeds and XORs");
    println!("class        lines  bytes  ours  whole answer  crate  ratio  floor  ours over floor");
    let mut ratios = vec![];
    let mut whole_ratios = vec![];
    for class in CLASSES {
        let lines = of(class);
        if lines.is_empty() {
            return Err(format!("the logs have no line of the class {class}").into());
        }
        let bytes: usize = lines.iter().map(|line| line.len()).sum();
        let times = medians(
            rounds,
            lines.len(),
            [
                &mut || lines.iter().for_each(|line| seen(abi::refusal(line))),
                &mut || {
                    let mut words = [0; abi::WORDS];
                    for line in &lines {
                        abi::answer(line, &mut words);
                        black_box(&words);
                    }
                },
                &mut || lines.iter().for_each(|line| seen(parse_bytes(line))),
                &mut || lines.iter().for_each(|line| seen(floor(line))),
            ],
        );
        let [ours, whole, theirs, floor] = times;
        let times = [Some(whole), Some(floor)];
        ratios.push(told(class, lines.len(), bytes, ours, theirs, times));
        whole_ratios.push(format!("{class}={:.2}", theirs / whole));
    }

    let logs = logs()?;
    let count: usize = logs.iter().map(|log| lines_of(log).count()).sum();
    let bytes: usize = logs.iter().map(|log| log.len()).sum();
    let [ours, theirs, least] = medians(
        rounds,
        count,
        [
            &mut || logs.iter().for_each(|log| seen(walk(log))),
            &mut || logs.iter().for_each(|log| seen(crate_walk(log))),
            &mut || logs.iter().for_each(|log| seen(floor(log))),
        ],
    );
    ratios.push(told(
        "walk",
        count,
        bytes,
        ours,
        theirs,
        [None, Some(least)],
    ));

    let all: Vec<&[u8]> = lines.iter().map(Vec::as_slice).collect();
    for (class, lines) in [("gather-gsv", of("gsv")), ("gather-all", all)] {
        let groups = [gather(&lines), crate_gather(&lines).groups.len()];
        if groups[0] != groups[1] {
            return Err(format!("{class}: {} groups, the crate's {}", groups[0], groups[1]).into());
        }
        let bytes: usize = lines.iter().map(|line| line.len()).sum();
        let [ours, theirs, least] = medians(
            rounds,
            lines.len(),
            [
                &mut || seen(gather(&lines)),
                &mut || seen(crate_gather(&lines)),
                &mut || lines.iter().for_each(|line| seen(floor(line))),
            ],
        );
        let times = [None, Some(least)];
        ratios.push(told(class, lines.len(), bytes, ours, theirs, times));
    }

    let programs = Programs::over(&logs)?;
    let Programs { lines, bytes, .. } = programs;
    let [ours, theirs] = medians(
        rounds,
        lines,
        [&mut || programs.transfer(), &mut || programs.plain()],
    );
    let times = [None, None];
    ratios.push(told("transfer", lines, bytes, ours, theirs, times));

    println!("\nthe same lines  ours ns a byte");
    let stretch = stretch(&logs);
    for times in [1, 8, 64] {
        let log = stretch.repeat(times);
        let [ours] = medians(rounds, lines_of(&log).count(), [&mut || seen(walk(&log))]);
        let lines = lines_of(&log).count() as f64;
        println!(
            "{:>8} bytes  {:>14.2}",
            log.len(),
            ours * lines / log.len() as f64
        );
    }

    println!("\nwhole answers {}", whole_ratios.join(" "));
    println!("ratios {}", ratios.join(" "));
    Ok(())
}

/// How many rounds are measured.
fn rounds() -> Result<usize, String> {
    const USAGE: &str = "usage: bench [--rounds N], N at least 1";
    let words: Vec<String> = env::args().skip(1).collect();
    match words.iter().map(String::as_str).collect::<Vec<_>>()[..] {
        [] => Ok(15),
        ["--rounds", number] => match number.parse() {
            Ok(rounds) if rounds > 0 => Ok(rounds),
            _ => Err(USAGE.into()),
        },
        _ => Err(USAGE.into()),
    }
}

/// Prints a class's times and answers its ratio. The whole answer's time and
/// the floor's are not measured of each.
fn told(
    class: &str,
    lines: usize,
    bytes: usize,
    ours: f64,
    theirs: f64,
    [whole, floor]: [Option<f64>; 2],
) -> String {
    let ratio = theirs / ours;
    let or_none = |text: Option<String>| text.unwrap_or("-".into());
    let whole = or_none(whole.map(|whole| format!("{whole:.0}")));
    let over = or_none(floor.map(|floor| format!("{:.1}", ours / floor)));
    let floor = or_none(floor.map(|floor| format!("{floor:.0}")));
    println!(
        "{class:<10} {lines:>7}  {:>5.0}  {ours:>4.0}  {whole:>12}  {theirs:>5.0}  {ratio:>5.2}  {floor:>5}  {over:>15}",
        bytes as f64 / lines as f64,
    );
    format!("{class}={ratio:.2}")
}

/// The median nanoseconds a line of each side; in a round each side has its turn.
fn medians<const N: usize>(
    rounds: usize,
    lines: usize,
    mut sides: [&mut dyn FnMut(); N],
) -> [f64; N] {
    let times = LINES_A_ROUND.div_ceil(lines);
    let mut taken: [Vec<f64>; N] = std::array::from_fn(|_| vec![]);
    // one round more than is counted, for caches and the processor's clock
    for round in 0..=rounds {
        for (side, taken) in sides.iter_mut().zip(&mut taken) {
            let start = Instant::now();
            for _ in 0..times {
                side();
            }
            if round > 0 {
                taken.push(start.elapsed().as_nanos() as f64 / (times * lines) as f64);
            }
        }
    }
    taken.map(|mut taken| {
        taken.sort_by(f64::total_cmp);
        taken[taken.len() / 2]
    })
}

/// The class of a line, by our answer.
fn class_of(line: &[u8]) -> &'static str {
    let mut words = [0; abi::WORDS];
    abi::answer(line, &mut words);
    match words[0] {
        1 => "rmc",
        2 => "gsa",
        3 => "gsv",
        4 => "other",
        6 => "gga",
        7 => "gll",
        8 => "vtg",
        _ => "refused",
    }
}

/// Keeps the compiler from leaving out what made a value.
fn seen<T>(value: T) {
    black_box(value);
}

/// One pass that finds the line feeds and XORs: nothing that checks sums can be faster.
fn floor(bytes: &[u8]) -> (usize, u8) {
    let (mut lines, mut sum) = (0, 0);
    for &byte in bytes {
        lines += usize::from(byte == b'\n');
        sum ^= byte;
    }
    (lines, sum)
}

fn lines_of(log: &[u8]) -> impl Iterator<Item = &[u8]> {
    log.split_inclusive(|&byte| byte == b'\n').map(|line| {
        let line = line.strip_suffix(b"\n").unwrap_or(line);
        line.strip_suffix(b"\r").unwrap_or(line)
    })
}

fn walk(log: &[u8]) -> [u64; abi::TOTALS] {
    let mut totals = [0; abi::TOTALS];
    let did = abi::walk(log, &mut totals);
    assert_eq!(did, abi::DONE, "the walk refused a log");
    totals
}

/// Gathers the lines over a table, and reads each group. How many there are.
fn gather(lines: &[&[u8]]) -> usize {
    let mut table = [0; abi::TABLE];
    let mut words = [0; abi::WORDS];
    let mut row = [0; abi::ROW_WORDS];
    let mut groups = 0;
    abi::fresh(&mut table);
    for line in lines {
        let did = abi::gather(line, &mut words, &mut table);
        black_box(&words);
        if let Some(number) = did.checked_sub(abi::GROUP) {
            groups += usize::from(abi::row(&table, number as usize, &mut row) == abi::DONE);
            black_box(&row);
        }
    }
    groups
}

/// The same with the crate: every line read, the groups stored.
fn crate_gather(lines: &[&[u8]]) -> Gatherer {
    let mut gatherer = Gatherer::default();
    for line in lines {
        match parse_bytes(line) {
            Ok(ParseResult::GSV(data)) => gatherer.put(data),
            other => seen(other),
        }
    }
    gatherer
}

/// A walk with the crate: every line read, the groups stored.
fn crate_walk(log: &[u8]) -> ([u64; 4], Gatherer) {
    let mut gatherer = Gatherer::default();
    let [mut lines, mut blank, mut accepted, mut refused] = [0; 4];
    for line in lines_of(log) {
        lines += 1;
        if line.is_empty() {
            blank += 1;
            continue;
        }
        match parse_bytes(line) {
            Ok(ParseResult::GSV(data)) => {
                accepted += 1;
                gatherer.put(data);
            }
            Ok(_) => accepted += 1,
            Err(_) => refused += 1,
        }
    }
    ([lines, blank, accepted, refused], gatherer)
}

/// The logs, cut behind line feeds where one is too long for a walk.
fn logs() -> Result<Vec<Vec<u8>>, Box<dyn Error>> {
    let mut pieces = vec![];
    for log in corpus()? {
        let mut rest = &log.bytes[..];
        while rest.len() > LONGEST_LOG {
            let cut = rest[..LONGEST_LOG].iter().rposition(|&byte| byte == b'\n');
            let (piece, more) = rest.split_at(cut.map_or(LONGEST_LOG, |at| at + 1));
            pieces.push(piece.to_vec());
            rest = more;
        }
        pieces.push(rest.to_vec());
    }
    pieces.retain(|piece| !piece.is_empty());
    Ok(pieces)
}

/// About a KiB of lines from all over the logs.
fn stretch(logs: &[Vec<u8>]) -> Vec<u8> {
    let lines: Vec<&[u8]> = logs
        .iter()
        .flat_map(|log| log.split_inclusive(|&byte| byte == b'\n'))
        .filter(|line| line.ends_with(b"\n"))
        .collect();
    let mut stretch = vec![];
    for line in lines.iter().step_by(lines.len() / 16) {
        if stretch.len() + line.len() <= 1024 {
            stretch.extend_from_slice(line);
        }
    }
    stretch
}
