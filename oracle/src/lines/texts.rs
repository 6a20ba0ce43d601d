//! The texts of single fields.

use super::draft::Draft;

/// Whole numbers at the limits of their types, and texts that are none.
const ODD_NUMBERS: [&str; 27] = [
    "0",
    "255",
    "256",
    "65535",
    "65536",
    "16777216",
    "16777217",
    "2147483647",
    "2147483648",
    "4294967295",
    "4294967296",
    "18446744073709551616",
    "00000000000000000007",
    "0000255",
    "0000256",
    "",
    "-5",
    "-0",
    "+5",
    "5x",
    "x5",
    "x",
    " 5",
    "5 ",
    "5.0",
    "5:",
    "/5",
];

/// Texts at the edges of a plain decimal, short and long, and beyond them.
const ODD_DECIMALS: [&str; 71] = [
    "5.",
    ".5",
    ".",
    "+1",
    "-1",
    "-0",
    "-0.0",
    "-99",
    "-60",
    "-59.999999999",
    "-.5",
    "-5.",
    "-",
    "-.",
    "--1",
    "-+1",
    "+-1",
    "- 1",
    "1-1",
    "1-",
    "-1e1",
    "1e1",
    "1E+1",
    "1e-3",
    "1e",
    "1e39",
    "1e309",
    "nan",
    "NaN",
    "-nan",
    "inf",
    "Inf",
    "-inf",
    "infinity",
    "1.2.3",
    "1..2",
    "1x",
    "x",
    " 1",
    "1 ",
    "0x10",
    "1_0",
    "1:",
    "/1",
    "1234567",
    "12345678",
    "-1234567",
    "-12345678",
    "1.234567",
    "1.2345678",
    "-1.234567",
    "-1.2345678",
    "123456.7",
    "0000000",
    "00000000",
    "0.000000",
    "9999999",
    "999999.9",
    "9.999999",
    "16777217",
    "4294967295",
    "4294967296",
    "999",
    "1000",
    "999.999999999",
    "999.9999999999",
    "-999.999999999",
    "-999.9999999999",
    "-1000",
    "0001",
    "0.0000000005",
];

impl Draft {
    /// A whole number below the bound, with leading zeros to its width.
    pub(super) fn number(&mut self, bound: usize, width: usize) {
        if !self.random.odd() {
            let number = self.random.below(bound);
            return self.whole(number, width);
        }
        if self.random.one_in(3) {
            // Of any size, also where a float has no bits for all of it.
            let count = self.random.between(1, 11);
            return self.digits(count);
        }
        self.one_of(&ODD_NUMBERS);
    }

    /// A number of two or three bytes, which may begin with a plus.
    pub(super) fn fixed_width(&mut self, bound: usize, width: usize) {
        if !self.random.odd() {
            let number = self.random.below(bound);
            return self.whole(number, width);
        }
        match self.random.below(8) {
            fault @ 0..=3 => {
                self.byte(b"++- "[fault]);
                self.digits(width - 1);
            }
            4 => {
                self.digits(width - 1);
                self.byte(b'+');
            }
            5 => self.digits(width - 1),
            6 => self.whole(bound, width),
            _ => self.digits(width),
        }
    }

    /// Digits, and decimals behind a point if there are any.
    pub(super) fn decimal(&mut self, whole: usize, decimals: usize) {
        self.digits(whole);
        if decimals > 0 {
            self.byte(b'.');
            self.digits(decimals);
        }
    }

    /// A minus sign before one decimal in six. Whether it is there.
    pub(super) fn sign(&mut self) -> bool {
        let is_there = self.random.one_in(6);
        if is_there {
            self.byte(b'-');
        }
        is_there
    }

    /// A decimal of at most 7 digits, which may have a sign.
    pub(super) fn short(&mut self) {
        self.sign();
        if self.random.odd() {
            return match self.random.below(3) {
                // Seven digits and eight.
                0 => {
                    let (count, whole) = (self.random.between(7, 8), self.random.between(1, 7));
                    self.decimal(whole, count - whole);
                }
                _ => self.one_of(&ODD_DECIMALS),
            };
        }
        let (whole, decimals) = (self.random.between(1, 3), self.random.below(4));
        self.decimal(whole, decimals);
    }

    /// A short decimal, or nothing.
    pub(super) fn short_or_none(&mut self) {
        if !self.random.one_in(5) {
            self.short();
        }
    }

    /// A decimal of two digits below 60, with at most 9 behind the point.
    pub(super) fn long(&mut self) {
        if self.random.odd() {
            return match self.random.below(3) {
                0 => {
                    let (whole, decimals) = (self.random.between(2, 4), self.random.between(8, 10));
                    self.decimal(whole, decimals);
                }
                1 => self.decimal(3, 1),
                _ => self.one_of(&ODD_DECIMALS),
            };
        }
        let whole = self.random.below(60);
        self.whole(whole, 2);
        let most = if self.random.one_in(6) { 9 } else { 4 };
        let decimals = self.random.below(most + 1);
        if decimals > 0 {
            self.byte(b'.');
            self.digits(decimals);
        }
    }

    /// The letter of a unit, or nothing; both are right.
    pub(super) fn unit(&mut self, letter: u8) {
        if !self.random.one_in(4) {
            self.letter(&[letter]);
        }
    }

    /// One of the known letters, or another byte, or none, or two.
    pub(super) fn letter(&mut self, known: &[u8]) {
        let one = self.random.pick(known);
        if !self.random.odd() {
            return self.byte(one);
        }
        match self.random.below(6) {
            0 => {}
            1 => self.byte(one.to_ascii_lowercase()),
            2 => self.fill(one, 2),
            3 => {
                let any = self.random.byte(0, 127);
                self.byte(any);
            }
            _ => {
                let other = self.random.byte(b'A', b'Z');
                self.byte(other);
            }
        }
    }
}
