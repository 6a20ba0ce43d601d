//! The words of an answer or of a row, by their places in `docs/ABI.md`.

use std::fmt;

use crate::places::OPTION_NUMBER;

/// The words of one answer, or of one row.
pub(crate) struct Words<'a>(pub(crate) &'a [u64]);

/// A word that the ABI does not allow at its place.
///
/// That none comes is proved of the library: each word of an answer is the
/// one that its contract names. So this error is the one place for what could
/// only be a library of another making, and [`proved`] says so.
#[derive(Debug)]
pub(crate) struct Unfit {
    at: usize,
    word: Option<u64>,
}

/// What the words say, which those of the proved library always do.
pub(crate) fn proved<T>(said: Result<T, Unfit>) -> T {
    said.unwrap_or_else(|unfit| {
        panic!("the linked libcapi.a is not the proved one: in its answer, {unfit}")
    })
}

impl Words<'_> {
    pub(crate) fn word(&self, at: usize) -> Result<u64, Unfit> {
        self.0.get(at).copied().ok_or_else(|| self.unfit(at))
    }

    /// A number within the range of its type.
    pub(crate) fn number<T: TryFrom<u64>>(&self, at: usize) -> Result<T, Unfit> {
        T::try_from(self.word(at)?).map_err(|_| self.unfit(at))
    }

    pub(crate) fn flag(&self, at: usize) -> Result<bool, Unfit> {
        match self.word(at)? {
            0 => Ok(false),
            1 => Ok(true),
            _ => Err(self.unfit(at)),
        }
    }

    /// A part that has a 1 at its place; absent where that is 0.
    pub(crate) fn part<T>(
        &self,
        at: usize,
        read: impl FnOnce(&Self, usize) -> Result<T, Unfit>,
    ) -> Result<Option<T>, Unfit> {
        match self.flag(at)? {
            true => read(self, at).map(Some),
            false => Ok(None),
        }
    }

    /// Such a part that is a number.
    pub(crate) fn option<T: TryFrom<u64>>(&self, at: usize) -> Result<Option<T>, Unfit> {
        self.part(at, |words, at| words.number(at + OPTION_NUMBER))
    }

    /// What has no such flag, and is absent where its word is 0.
    pub(crate) fn unless_zero<T>(
        &self,
        at: usize,
        read: impl FnOnce(&Self, usize) -> Result<T, Unfit>,
    ) -> Result<Option<T>, Unfit> {
        match self.word(at)? {
            0 => Ok(None),
            _ => read(self, at).map(Some),
        }
    }

    pub(crate) fn unfit(&self, at: usize) -> Unfit {
        let word = self.0.get(at).copied();
        Unfit { at, word }
    }
}

impl fmt::Display for Unfit {
    fn fmt(&self, f: &mut fmt::Formatter) -> fmt::Result {
        match self.word {
            Some(word) => write!(f, "word {} is {word}", self.at),
            None => write!(f, "there is no word {}", self.at),
        }
    }
}

#[cfg(test)]
mod tests {
    use super::*;
    use crate::abi::WORDS;

    #[test]
    fn an_unfit_word_is_named() {
        let words = Words(&[300; WORDS]);
        let told = |unfit: Unfit| unfit.to_string();
        assert_eq!(words.number::<u16>(1).map_err(told), Ok(300));
        assert_eq!(
            words.number::<u8>(2).map_err(told),
            Err("word 2 is 300".into())
        );
        assert_eq!(words.flag(3).map_err(told), Err("word 3 is 300".into()));
        assert_eq!(
            words.word(40).map_err(told),
            Err("there is no word 40".into())
        );
    }

    #[test]
    fn parts_that_are_absent() {
        let words = Words(&[0; WORDS]);
        assert!(matches!(words.option::<u8>(1), Ok(None)));
        assert!(matches!(
            words.unless_zero(1, Words::number::<u8>),
            Ok(None)
        ));
    }
}
