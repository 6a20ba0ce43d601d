//! Lines as a bad cable leaves them.

use super::draft::Draft;
use crate::repair;

/// Bytes that mean something somewhere in a sentence.
const MEANINGFUL: &[u8] = b",,,,*$.+-0123456789ABCDEFGKLMNPQRSTUVW \r\n\0";

/// UTF-8 at the edges of its ranges.
const VALID: [&[u8]; 10] = [
    b"\xC2\x80",
    b"\xC3\xA9",
    b"\xDF\xBF",
    b"\xE0\xA0\x80",
    b"\xE2\x82\xAC",
    b"\xED\x9F\xBF",
    b"\xEE\x80\x80",
    b"\xF0\x90\x80\x80",
    b"\xF0\x9F\x98\x80",
    b"\xF4\x8F\xBF\xBF",
];

/// Bytes just beyond these edges, and characters cut short.
const INVALID: [&[u8]; 20] = [
    b"\x80",
    b"\xBF",
    b"\xC0\x80",
    b"\xC1\xBF",
    b"\xC3",
    b"\xC3\x28",
    b"\xC3\xC3\xA9",
    b"\xE0\x9F\xBF",
    b"\xE2\x82",
    b"\xE2\x28\xAC",
    b"\xE2\x82\x28",
    b"\xED\xA0\x80",
    b"\xED\xBF\xBF",
    b"\xF0\x8F\xBF\xBF",
    b"\xF0\x9F\x98",
    b"\xF0\x9F\x98\x28",
    b"\xF4\x90\x80\x80",
    b"\xF5\x80\x80\x80",
    b"\xFE",
    b"\xFF",
];

impl Draft {
    /// One fault in the line, or two.
    pub(super) fn damage(&mut self) {
        for _ in 0..self.random.between(1, 2) {
            self.hurt();
        }
        // With a right checksum the fault comes to the readers of the data.
        if !self.random.one_in(3) {
            repair(&mut self.line);
        }
    }

    fn hurt(&mut self) {
        let Draft { random, line } = self;
        if line.is_empty() {
            return;
        }
        let at = random.below(line.len());
        match random.below(16) {
            0..=3 => line[at] = random.pick(MEANINGFUL),
            4 => line[at] = random.byte(0, 127),
            5 => line[at] = random.byte(0, 255),
            6..=8 => drop(line.remove(at)),
            9 | 10 => line.insert(at, line[at]),
            11 => line.insert(at, random.pick(MEANINGFUL)),
            12 => line.truncate(at),
            13 => {
                let next = (at + 1) % line.len();
                line.swap(at, next);
            }
            14 => {
                let last = line.len() - 1;
                line[last] ^= 1;
            }
            _ => {
                let piece = match random.one_in(2) {
                    true => random.pick(&VALID),
                    false => random.pick(&INVALID),
                };
                line.splice(at..at, piece.iter().copied());
            }
        }
    }

    /// A line with bytes of 128 and above, of some length or just too long.
    pub(super) fn noise(&mut self) {
        let letters = match self.random.below(4) {
            0 => self.random.between(100, 104),
            1 => self.random.below(300),
            _ => 0,
        };
        self.fill(b'x', letters);
        let Draft { random, line } = self;
        for _ in 0..random.below(5) {
            match random.below(8) {
                0 => line.push(random.byte(0, 127)),
                1 => line.push(random.byte(0, 255)),
                2 | 3 => line.extend_from_slice(random.pick(&INVALID)),
                _ => line.extend_from_slice(random.pick(&VALID)),
            }
        }
    }
}
