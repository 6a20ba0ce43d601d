//! Whole sentences: talker, type, data, checksum and what follows.

use nmea::SentenceType;

use super::draft::Draft;
use crate::{checksum, hexadecimal, known::LONGEST, KNOWN_TYPES};

/// Talkers that name a system somewhere, and some that do not.
const TALKERS: [&str; 16] = [
    "GP", "GP", "GP", "GL", "GA", "GB", "BD", "GI", "GQ", "PQ", "QZ", "GN", "GN", "ID", "PG", "gp",
];

/// Types that are nearly known.
const ODD_TYPES: [&str; 10] = [
    "rmc", "gsv", "GSa", "RM", "GS", "RMCA", "", "gga", "GG", "VTGA",
];

/// What may stand behind a checksum.
const REST: [&str; 8] = ["\r", "\r\n", " ", "x", ",", "*00", "$GPGSA,A,1,,,,*32", "0"];

const ODD_CHECKSUMS: [&str; 13] = [
    "", "0", "+", "-A", "-0", "++", "G0", "0G", " 0", "0 ", "0x", "A+", "*0",
];

impl Draft {
    /// A sentence whose frame is mostly right.
    pub(super) fn sentence(&mut self) {
        self.random.choose_oddness();
        // One line in sixteen has a frame that is off, in one place.
        let fault = self.random.below(16 * 8);
        self.put(match fault {
            0 => "",
            1 => "!",
            2 => " $",
            _ => "$",
        });
        let body = self.line.len();
        self.body();
        if (3..=5).contains(&fault) {
            self.break_first_comma(body, fault - 3);
        }
        let sum = checksum(&self.line[body..]);
        if fault != 6 {
            self.byte(b'*');
        }
        match fault {
            7 => self.odd_checksum(),
            _ => self.right_checksum(sum),
        }
        if self.random.one_in(10) {
            self.rest();
        }
    }

    /// Talker, type, comma and data.
    fn body(&mut self) {
        self.talker();
        match self.random.below(32) {
            0..=6 => {
                self.put("RMC,");
                self.rmc();
            }
            7..=11 => {
                self.put("GSA,");
                self.gsa();
            }
            12..=15 => {
                self.put("GSV,");
                self.gsv();
            }
            16..=20 => {
                self.put("GGA,");
                self.gga();
            }
            21..=23 => {
                self.put("GLL,");
                self.gll();
            }
            24..=28 => {
                self.put("VTG,");
                self.vtg();
            }
            _ => {
                self.other_type();
                self.comma();
                self.other_data();
            }
        }
    }

    fn talker(&mut self) {
        if !self.random.one_in(20) {
            return self.one_of(&TALKERS);
        }
        for _ in 0..2 {
            let any = self.random.byte(0, 127);
            self.byte(any);
        }
    }

    /// A type that is not read: one that document 01 knows, one that only the
    /// crate knows, or any three bytes.
    fn other_type(&mut self) {
        match self.random.below(12) {
            0..=5 => self.one_of(&KNOWN_TYPES),
            6..=8 => {
                let known_there = self.random.pick(&SentenceType::TYPES);
                self.put(known_there.as_str());
            }
            9 => self.one_of(&ODD_TYPES),
            kind => {
                let (first, last) = if kind == 10 { (0, 127) } else { (b'A', b'Z') };
                for _ in 0..3 {
                    let letter = self.random.byte(first, last);
                    self.byte(letter);
                }
            }
        }
    }

    /// Data of any kind; some of it fills the line up to its longest.
    fn other_data(&mut self) {
        // `$`, talker, type, comma, `*` and two checksum bytes are ten.
        let length = match self.random.below(4) {
            0 => self.random.between(LONGEST - 1, LONGEST + 1) - 10,
            _ => self.random.below(40),
        };
        for _ in 0..length {
            let byte = match self.random.below(4) {
                0 => b',',
                1 => self.random.byte(b'0', b'9'),
                // No `*`, which would end the data.
                _ => self.random.byte(b'+', b'~'),
            };
            self.byte(byte);
        }
    }

    /// Drops the comma behind the type, or puts another byte there.
    fn break_first_comma(&mut self, body: usize, fault: usize) {
        let comma = self.line[body..].iter().position(|&byte| byte == b',');
        let Some(at) = comma.map(|comma| body + comma) else {
            return;
        };
        match fault {
            0 => drop(self.line.remove(at)),
            1 => self.line[at] = b';',
            _ => self.line[at] = b'*',
        }
    }

    /// The checksum in one of the forms that read as it.
    fn right_checksum(&mut self, sum: u8) {
        let mut digits = hexadecimal(sum);
        match self.random.below(4) {
            0 if sum < 16 => digits[0] = b'+',
            1 if sum < 16 => digits = [b'+', digits[1].to_ascii_lowercase()],
            2 => digits.make_ascii_lowercase(),
            _ => {}
        }
        self.line.extend(digits);
    }

    fn odd_checksum(&mut self) {
        match self.random.below(4) {
            0 => self.digits(2),
            1 => {
                self.byte(b'+');
                self.digits(1);
            }
            _ => self.one_of(&ODD_CHECKSUMS),
        }
    }

    /// Text behind the checksum; some of it fills the line up to its longest.
    fn rest(&mut self) {
        let wanted = self.random.between(LONGEST - 1, LONGEST + 1);
        match wanted.checked_sub(self.line.len()) {
            Some(missing) if self.random.one_in(2) => self.fill(b'x', missing),
            _ => self.one_of(&REST),
        }
    }
}
