use super::{random::Random, Generator};
use crate::{known::TALKERS, with_checksum};

/// A receiver's list of one system, of which some sentences were sent.
struct List {
    talkers: &'static [&'static str],
    sentences: usize,
    next: usize,
    in_view: usize,
}

/// A log made from a seed: receivers that send their lists of satellites in
/// turn, clones of each other among them, and what can come between.
pub fn generated_log(seed: u64) -> Vec<u8> {
    let mut random = Random::new(seed, 0);
    let mut others = Generator::new(seed);
    let mut lists: Vec<List> = vec![];
    let mut log = vec![];
    // How much of the log is amiss.
    let fault_in = random.pick(&[4, 8, 20, 1000]);
    // Many systems, or a few whose lists cut each other.
    let systems = random.between(1, TALKERS.len());
    for _ in 0..random.between(0, 80) {
        if lists.is_empty() || random.one_in(6) {
            lists.push(list(&mut random, systems));
        }
        let chosen = random.below(lists.len());
        let list = &mut lists[chosen];
        let sentence = match random.one_in(fault_in) {
            true => faulty(&mut random, list),
            false => next(&mut random, list),
        };
        log.extend_from_slice(&sentence);
        end_line(&mut random, &mut log);
        if lists[chosen].next > lists[chosen].sentences {
            lists.remove(chosen);
        }
        match random.below(fault_in) {
            0 => end_line(&mut random, &mut log),
            1 => {
                log.extend_from_slice(others.line());
                end_line(&mut random, &mut log);
            }
            _ => {}
        }
    }
    if random.one_in(2) {
        // The last line lacks its line feed, or more.
        log.truncate(log.len().saturating_sub(random.between(1, 4)));
    }
    log
}

fn list(random: &mut Random, systems: usize) -> List {
    List {
        talkers: TALKERS[random.below(systems)],
        sentences: random.pick(&[1, 1, 2, 2, 3, 3, 4, 9]),
        next: 1,
        in_view: random.between(1, 3),
    }
}

/// The list's next sentence.
fn next(random: &mut Random, list: &mut List) -> Vec<u8> {
    let sentence = gsv(random, list, list.sentences, list.next, list.in_view);
    list.next += 1;
    sentence
}

/// A sentence that breaks the list, or is refused.
fn faulty(random: &mut Random, list: &mut List) -> Vec<u8> {
    let List {
        sentences,
        next: number,
        in_view,
        ..
    } = *list;
    match random.below(12) {
        // Twice, and not at all.
        0 => gsv(random, list, sentences, number, in_view),
        1 => {
            list.next += 1;
            next(random, list)
        }
        // Other counts.
        2 => gsv(random, list, sentences + 1, number, in_view),
        3 => gsv(random, list, sentences, number, in_view + 1),
        4 => gsv(random, list, 0, number, in_view),
        5 => gsv(random, list, 10, number, in_view),
        6 => gsv(random, list, sentences, 0, in_view),
        7 => gsv(random, list, sentences, sentences + 1, in_view),
        8 => gsv(random, list, number, number, in_view),
        // Ten sentences are no group.
        9 => {
            *list = List {
                sentences: 10,
                next: 1,
                ..*list
            };
            next(random, list)
        }
        // A digit falls over: the checksum does not hold.
        _ => {
            let mut sentence = next(random, list);
            sentence[7] ^= 1;
            sentence
        }
    }
}

fn gsv(
    random: &mut Random,
    list: &List,
    sentences: usize,
    number: usize,
    in_view: usize,
) -> Vec<u8> {
    let talker = random.pick(list.talkers);
    let mut body = format!("{talker}GSV,{sentences},{number},{in_view},");
    for _ in 0..random.below(5) {
        let (satellite, signal) = (random.below(100), random.below(60));
        body += &match random.below(5) {
            0 => format!("{satellite},,,,"),
            1 => ",,,,".into(),
            _ => format!(
                "{satellite:02},{:02},{:03},{signal:02},",
                signal + 7,
                3 * signal
            ),
        };
    }
    with_checksum(&body).into_bytes()
}

fn end_line(random: &mut Random, log: &mut Vec<u8>) {
    let end: &str = random.pick(&["\n", "\n", "\n", "\r\n", "\r\n", "\r\r\n"]);
    log.extend_from_slice(end.as_bytes());
}
