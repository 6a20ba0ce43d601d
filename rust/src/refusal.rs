use std::{error::Error, fmt};

use crate::{
    places::{REFUSED_NUMBER, REFUSED_VALUES},
    words::{Unfit, Words},
    System, Talker, TypeName,
};

/// Why a line or a log is not accepted, with the values that it carries.
#[derive(Clone, Copy, Debug, PartialEq, Eq, Hash)]
#[non_exhaustive]
pub enum Refusal {
    /// The line is not UTF-8.
    BadUtf8,
    /// The line has bytes of 128 or above.
    NotAscii,
    /// The line is longer than 102 bytes: its length.
    TooLong(usize),
    /// A part is missing or is not what has to stand there.
    Syntax,
    /// The type is none of the thirty known ones.
    UnknownType,
    /// The checksum does not hold.
    Checksum {
        /// That of the line's bytes.
        calculated: u8,
        /// That which the line has.
        found: u8,
    },
    /// A GSV sentence of a talker that names no system.
    UnknownTalker(Talker),
    /// A GSA sentence whose talker and tail name two systems.
    SystemMismatch {
        /// The system that the talker names.
        talker: System,
        /// The system that the tail names.
        tail: System,
    },
    /// A decimal that is not plain, or has too many digits.
    Number,
    /// A reader of one type got another. [`crate::read`], which reads every
    /// type, never answers it.
    WrongHeader {
        /// The type that it reads.
        expected: TypeName,
        /// The type of the line.
        found: TypeName,
    },
    /// A time whose nanoseconds are not below 1,000,000,000.
    BadTime,
    /// A log longer than 65,536 bytes: its length. Only [`crate::walk`] answers it.
    LogTooLong(usize),
    /// A place where no line of the log starts. [`crate::walk`], which starts
    /// at 0, never answers it.
    BadPlace(usize),
}

impl Refusal {
    /// The refusal's number.
    pub fn number(&self) -> u32 {
        match self {
            Refusal::BadUtf8 => 1,
            Refusal::NotAscii => 2,
            Refusal::TooLong(_) => 3,
            Refusal::Syntax => 4,
            Refusal::UnknownType => 5,
            Refusal::Checksum { .. } => 6,
            Refusal::UnknownTalker(_) => 7,
            Refusal::SystemMismatch { .. } => 8,
            Refusal::Number => 9,
            Refusal::WrongHeader { .. } => 10,
            Refusal::BadTime => 11,
            Refusal::LogTooLong(_) => 12,
            Refusal::BadPlace(_) => 13,
        }
    }

    /// The refusal's name.
    pub fn name(&self) -> &'static str {
        match self {
            Refusal::BadUtf8 => "BadUtf8",
            Refusal::NotAscii => "NotAscii",
            Refusal::TooLong(_) => "TooLong",
            Refusal::Syntax => "Syntax",
            Refusal::UnknownType => "UnknownType",
            Refusal::Checksum { .. } => "Checksum",
            Refusal::UnknownTalker(_) => "UnknownTalker",
            Refusal::SystemMismatch { .. } => "SystemMismatch",
            Refusal::Number => "Number",
            Refusal::WrongHeader { .. } => "WrongHeader",
            Refusal::BadTime => "BadTime",
            Refusal::LogTooLong(_) => "LogTooLong",
            Refusal::BadPlace(_) => "BadPlace",
        }
    }

    pub(crate) fn of(words: &Words) -> Result<Self, Unfit> {
        const FIRST: usize = REFUSED_VALUES;
        const SECOND: usize = REFUSED_VALUES + 1;
        // Behind the first type's letters.
        const SECOND_TYPE: usize = REFUSED_VALUES + 3;
        let refusal = match words.word(REFUSED_NUMBER)? {
            1 => Refusal::BadUtf8,
            2 => Refusal::NotAscii,
            3 => Refusal::TooLong(words.number(FIRST)?),
            4 => Refusal::Syntax,
            5 => Refusal::UnknownType,
            6 => Refusal::Checksum {
                calculated: words.number(FIRST)?,
                found: words.number(SECOND)?,
            },
            7 => Refusal::UnknownTalker(Talker::of(words, FIRST)?),
            8 => Refusal::SystemMismatch {
                talker: System::of(words, FIRST)?,
                tail: System::of(words, SECOND)?,
            },
            9 => Refusal::Number,
            10 => Refusal::WrongHeader {
                expected: TypeName::of(words, FIRST)?,
                found: TypeName::of(words, SECOND_TYPE)?,
            },
            11 => Refusal::BadTime,
            12 => Refusal::LogTooLong(words.number(FIRST)?),
            13 => Refusal::BadPlace(words.number(FIRST)?),
            _ => return Err(words.unfit(REFUSED_NUMBER)),
        };
        Ok(refusal)
    }
}

/// As in `refused 6 Checksum (calculated 32, found 33)`; checksums are
/// written in hexadecimal, as a sentence has them.
impl fmt::Display for Refusal {
    fn fmt(&self, f: &mut fmt::Formatter) -> fmt::Result {
        write!(f, "refused {} {}", self.number(), self.name())?;
        match self {
            Refusal::TooLong(length) | Refusal::LogTooLong(length) => {
                write!(f, " (length {length})")
            }
            Refusal::Checksum { calculated, found } => {
                write!(f, " (calculated {calculated:02X}, found {found:02X})")
            }
            Refusal::UnknownTalker(talker) => write!(f, " (talker {talker})"),
            Refusal::SystemMismatch { talker, tail } => {
                write!(f, " (talker {talker}, tail {tail})")
            }
            Refusal::WrongHeader { expected, found } => {
                write!(f, " (expected {expected}, found {found})")
            }
            Refusal::BadPlace(place) => write!(f, " (place {place})"),
            Refusal::BadUtf8
            | Refusal::NotAscii
            | Refusal::Syntax
            | Refusal::UnknownType
            | Refusal::Number
            | Refusal::BadTime => Ok(()),
        }
    }
}

impl Error for Refusal {}
