use super::random::Random;

/// A line in the making.
pub(super) struct Draft {
    pub(super) random: Random,
    /// The bytes so far. The buffer is used again for the next line.
    pub(super) line: Vec<u8>,
}

impl Draft {
    pub(super) fn new(random: Random) -> Self {
        Draft {
            random,
            line: vec![],
        }
    }

    pub(super) fn put(&mut self, text: &str) {
        self.line.extend_from_slice(text.as_bytes());
    }

    pub(super) fn byte(&mut self, byte: u8) {
        self.line.push(byte);
    }

    pub(super) fn comma(&mut self) {
        self.byte(b',');
    }

    pub(super) fn fill(&mut self, byte: u8, count: usize) {
        self.line.resize(self.line.len() + count, byte);
    }

    /// One of the texts.
    pub(super) fn one_of(&mut self, texts: &[&str]) {
        let text = self.random.pick(texts);
        self.put(text);
    }

    /// So many digits.
    pub(super) fn digits(&mut self, count: usize) {
        for _ in 0..count {
            let digit = self.random.byte(b'0', b'9');
            self.byte(digit);
        }
    }

    /// What stands behind the last comma goes, with that comma.
    pub(super) fn drop_last_field(&mut self) {
        let comma = self.line.iter().rposition(|&byte| byte == b',');
        self.line.truncate(comma.unwrap_or_default());
    }

    /// A whole number, with leading zeros to its width.
    pub(super) fn whole(&mut self, number: usize, width: usize) {
        put_whole(&mut self.line, number as u64, width);
    }
}

/// Appends a whole number, with leading zeros to its width.
pub(super) fn put_whole(line: &mut Vec<u8>, mut number: u64, width: usize) {
    let start = line.len();
    while number > 0 || line.len() - start < width.max(1) {
        line.push(b'0' + (number % 10) as u8);
        number /= 10;
    }
    line[start..].reverse();
}
