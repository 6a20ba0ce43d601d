//! Logs that are made, with what receivers and cables do to them.

use super::{with_checksum, Random, GGA, GLL, VTG};

const TALKERS: [&str; 10] = ["GP", "GL", "GA", "GB", "BD", "GI", "GQ", "PQ", "QZ", "GN"];

/// The list that a talker is sending.
#[derive(Clone, Copy, Default)]
struct Sending {
    sentences: usize,
    number: usize,
    in_view: usize,
}

/// Lists of several talkers in turn, in which some lines are wrong or missing.
pub fn generated(random: &mut Random, length: usize) -> Vec<u8> {
    let count = 1 + random.below(4);
    let talkers: Vec<&str> = (0..count).map(|_| random.pick(&TALKERS)).collect();
    // How often something is off, from never to nearly always.
    let odd_in = random.pick(&[2, 5, 20, 100, 1_000_000]);
    let mut sending = vec![Sending::default(); talkers.len()];
    let mut log = vec![];
    loop {
        let line = match random.below(8) {
            0 if random.one_in(odd_in) => random.pick(&["", "x", "$GPGSV", "\u{e9}", "\0"]).into(),
            0 => random.pick(&["$GPTXT,i*0A", GGA, GLL, VTG]).into(),
            _ => {
                let at = random.below(talkers.len());
                gsv_line(random, odd_in, talkers[at], &mut sending[at])
            }
        };
        let end = random.pick(&["\n", "\n", "\r\n", "\r\r\n"]);
        if log.len() + line.len() + end.len() > length {
            return log;
        }
        log.extend(line.bytes().chain(end.bytes()));
    }
}

fn gsv_line(random: &mut Random, odd_in: usize, talker: &str, list: &mut Sending) -> String {
    list.number += 1;
    if list.number > list.sentences || random.one_in(odd_in) {
        *list = Sending {
            sentences: 1 + random.below(9),
            number: 1,
            in_view: random.below(3),
        };
    }
    let mut line = *list;
    let off = |random: &mut Random, right| match random.one_in(odd_in) {
        true => random.pick(&[0, 1, 2, 3, 9, 10, 11, 65_535]),
        false => right,
    };
    line.sentences = off(random, line.sentences);
    line.number = off(random, line.number);
    line.in_view = off(random, line.in_view);
    let entries: String = (0..random.below(5))
        .map(|_| format!("{},,,,", random.below(99)))
        .collect();
    let sentence = with_checksum(&format!(
        "{talker}GSV,{},{},{},{entries}",
        line.sentences, line.number, line.in_view
    ));
    match random.one_in(odd_in * 4) {
        // Damage, which the checksum finds.
        true => sentence.replacen(',', ";", 2),
        false => sentence,
    }
}

/// The log with some of its bytes changed, left out, or sent twice.
pub fn damaged(random: &mut Random, mut log: Vec<u8>) -> Vec<u8> {
    for _ in 0..1 + random.below(8) {
        if log.is_empty() {
            break;
        }
        let at = random.below(log.len());
        let end = log.len().min(at + 1 + random.below(90));
        match random.below(4) {
            0 => log[at] = random.below(256) as u8,
            1 => log[at] ^= 1 << random.below(8),
            2 => drop(log.drain(at..end)),
            _ => {
                let twice = log[at..end].to_vec();
                log.splice(at..at, twice);
            }
        }
    }
    log
}
