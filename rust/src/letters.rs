//! Bytes that stand for something: names, and single letters with a meaning.

use std::{fmt, str};

use crate::words::{Unfit, Words};

/// A name of so many ASCII bytes, as the line has it.
#[derive(Clone, Copy, PartialEq, Eq, PartialOrd, Ord, Hash)]
pub struct Letters<const N: usize>([u8; N]);

/// Who sent a sentence: any two ASCII bytes.
pub type Talker = Letters<2>;

/// The type of a sentence.
pub type TypeName = Letters<3>;

impl<const N: usize> Letters<N> {
    /// A name of these bytes, if all are ASCII.
    pub const fn new(bytes: [u8; N]) -> Option<Self> {
        match bytes.is_ascii() {
            true => Some(Letters(bytes)),
            false => None,
        }
    }

    /// The name as text. It may have any ASCII, also what cannot be shown.
    pub fn as_str(&self) -> &str {
        // All are ASCII: whoever makes one sees to it.
        str::from_utf8(&self.0).unwrap_or_default()
    }

    /// The name's bytes.
    pub fn bytes(&self) -> [u8; N] {
        self.0
    }

    pub(crate) fn of(words: &Words, at: usize) -> Result<Self, Unfit> {
        let mut letters = [0; N];
        for (i, letter) in letters.iter_mut().enumerate() {
            *letter = words.number(at + i)?;
        }
        Letters::new(letters).ok_or_else(|| words.unfit(at))
    }
}

impl TypeName {
    pub(crate) const RMC: Self = Letters(*b"RMC");
    pub(crate) const GSA: Self = Letters(*b"GSA");
    pub(crate) const GSV: Self = Letters(*b"GSV");
    pub(crate) const GGA: Self = Letters(*b"GGA");
    pub(crate) const GLL: Self = Letters(*b"GLL");
    pub(crate) const VTG: Self = Letters(*b"VTG");
}

/// The letters; bytes that cannot be shown are escaped.
impl<const N: usize> fmt::Display for Letters<N> {
    fn fmt(&self, f: &mut fmt::Formatter) -> fmt::Result {
        write!(f, "{}", self.0.escape_ascii())
    }
}

/// The name, as in `UnknownTalker(ID)`; quoted and escaped where it has more than letters and digits.
impl<const N: usize> fmt::Debug for Letters<N> {
    fn fmt(&self, f: &mut fmt::Formatter) -> fmt::Result {
        match self.0.iter().all(u8::is_ascii_alphanumeric) {
            true => f.write_str(self.as_str()),
            false => fmt::Debug::fmt(self.as_str(), f),
        }
    }
}

impl<const N: usize> PartialEq<str> for Letters<N> {
    fn eq(&self, other: &str) -> bool {
        self.as_str() == other
    }
}

impl<const N: usize> PartialEq<&str> for Letters<N> {
    fn eq(&self, other: &&str) -> bool {
        self.as_str() == *other
    }
}

/// An enum whose cases are the letters that a sentence may have at one place.
macro_rules! letters {
    ($(#[$about:meta])* $name:ident { $($(#[$case_about:meta])* $case:ident = $letter:literal,)+ }) => {
        $(#[$about])*
        #[derive(Clone, Copy, Debug, PartialEq, Eq, Hash)]
        #[repr(u8)]
        pub enum $name {
            $($(#[$case_about])* $case = $letter,)+
        }

        impl $name {
            /// The letter as the sentence has it.
            pub fn letter(self) -> char {
                char::from(self as u8)
            }

            pub(crate) fn of(
                words: &crate::words::Words,
                at: usize,
            ) -> Result<Self, crate::words::Unfit> {
                match words.number(at)? {
                    $($letter => Ok($name::$case),)+
                    _ => Err(words.unfit(at)),
                }
            }
        }
    };
}
