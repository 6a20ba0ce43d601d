use crate::System;

/// Takes the words of an answer, or of a row, one after another.
pub(crate) struct Reader<'a> {
    words: &'a [u64],
    /// The next word.
    at: usize,
}

impl<'a> Reader<'a> {
    pub(crate) fn new(words: &'a [u64]) -> Self {
        Reader { words, at: 0 }
    }

    pub(crate) fn word(&mut self) -> u64 {
        let word = self.words[self.at];
        self.at += 1;
        word
    }

    /// The error that the word taken last is not one that stands there.
    pub(crate) fn unfit(&self, why: &str) -> String {
        let at = self.at - 1;
        format!("word {at} is {}: {why}", self.words[at])
    }

    /// A word within the range of its type.
    pub(crate) fn fits<T: TryFrom<u64>>(&mut self) -> Result<T, String> {
        T::try_from(self.word()).map_err(|_| self.unfit("out of its range"))
    }

    pub(crate) fn flag(&mut self) -> Result<bool, String> {
        match self.word() {
            0 => Ok(false),
            1 => Ok(true),
            _ => Err(self.unfit("neither 0 nor 1")),
        }
    }

    pub(crate) fn letter(&mut self) -> Result<char, String> {
        match self.optional_letter()? {
            Some(letter) => Ok(letter),
            None => Err(self.unfit("no letter")),
        }
    }

    /// A letter, or 0 if it is absent.
    pub(crate) fn optional_letter(&mut self) -> Result<Option<char>, String> {
        match self.fits()? {
            0 => Ok(None),
            byte @ 1..=127u8 => Ok(Some(char::from(byte))),
            _ => Err(self.unfit("no letter")),
        }
    }

    /// One of the first `count` systems.
    pub(crate) fn system(&mut self, count: usize) -> Result<System, String> {
        match self.optional_system(count)? {
            Some(system) => Ok(system),
            None => Err(self.unfit("no system")),
        }
    }

    /// One of the first `count` systems, or 0 if it is absent.
    pub(crate) fn optional_system(&mut self, count: usize) -> Result<Option<System>, String> {
        let number: usize = self.fits()?;
        if number > count {
            return Err(self.unfit("no system"));
        }
        Ok(number.checked_sub(1).map(|index| System::ALL[index]))
    }

    /// A part that has a 1 before it if it is there. It has `count` words,
    /// which are 0 if it is absent.
    pub(crate) fn optional<T>(
        &mut self,
        count: usize,
        read: impl FnOnce(&mut Self) -> Result<T, String>,
    ) -> Result<Option<T>, String> {
        if self.flag()? {
            return read(self).map(Some);
        }
        self.zeros(count)?;
        Ok(None)
    }

    /// The words that are left are 0.
    pub(crate) fn end(mut self) -> Result<(), String> {
        self.zeros(self.words.len() - self.at)
    }

    fn zeros(&mut self, count: usize) -> Result<(), String> {
        for _ in 0..count {
            if self.word() != 0 {
                return Err(self.unfit("not 0"));
            }
        }
        Ok(())
    }
}
