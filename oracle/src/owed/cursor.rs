use crate::{is_plain, Limits};

/// Why data is not read further.
#[derive(Clone, Copy, Debug, PartialEq, Eq)]
pub(super) enum Fault {
    Syntax,
    Number,
}

/// Data that is read from the left.
pub(super) struct Cursor<'a> {
    rest: &'a str,
}

impl<'a> Cursor<'a> {
    pub(super) fn new(data: &'a str) -> Self {
        Cursor { rest: data }
    }

    /// The next bytes, which are eaten.
    fn take(&mut self, count: usize) -> Result<&'a str, Fault> {
        let (taken, rest) = self.rest.split_at_checked(count).ok_or(Fault::Syntax)?;
        self.rest = rest;
        Ok(taken)
    }

    pub(super) fn is_at_comma(&self) -> bool {
        self.rest.starts_with(',')
    }

    pub(super) fn eats(&mut self, text: &str) -> bool {
        let rest = self.rest.strip_prefix(text);
        self.rest = rest.unwrap_or(self.rest);
        rest.is_some()
    }

    pub(super) fn comma(&mut self) -> Result<(), Fault> {
        self.eats(",").then_some(()).ok_or(Fault::Syntax)
    }

    pub(super) fn one_of(&mut self, letters: &str) -> Result<(), Fault> {
        let letter = self.take(1)?;
        letters.contains(letter).then_some(()).ok_or(Fault::Syntax)
    }

    /// A number of so many bytes: digits, or a plus and digits, up to 255.
    pub(super) fn number(&mut self, width: usize) -> Result<u8, Fault> {
        self.take(width)?.parse().map_err(|_| Fault::Syntax)
    }

    /// The plain decimal up to the next comma or the end, or nothing.
    pub(super) fn decimal(&mut self, limits: Limits) -> Result<&'a str, Fault> {
        let end = self.rest.find(',').unwrap_or(self.rest.len());
        let text = self.take(end)?;
        if text.is_empty() || is_plain(text, limits) {
            Ok(text)
        } else {
            Err(Fault::Number)
        }
    }

    /// A decimal that may not be absent.
    pub(super) fn filled(&mut self, limits: Limits) -> Result<&'a str, Fault> {
        match self.decimal(limits)? {
            "" => Err(Fault::Syntax),
            text => Ok(text),
        }
    }

    /// Whether the rest is commas, and behind them nothing or the number of a
    /// system.
    pub(super) fn is_commas_and_system(&self) -> bool {
        let last = self.rest.trim_start_matches(',');
        let is_number = last.bytes().all(|byte| byte.is_ascii_digit());
        self.is_at_comma() && (last.is_empty() || is_number && last.parse::<u8>().is_ok())
    }

    /// Eats a number of satellites, or of one, or nothing, and its comma, if they
    /// are there.
    pub(super) fn eats_item(&mut self) -> bool {
        let behind = self
            .rest
            .trim_start_matches(|letter: char| letter.is_ascii_digit());
        let number = &self.rest[..self.rest.len() - behind.len()];
        match behind.strip_prefix(',') {
            Some(rest) if number.is_empty() || number.parse::<u32>().is_ok() => {
                self.rest = rest;
                true
            }
            _ => false,
        }
    }
}
