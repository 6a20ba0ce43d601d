use nmea::{Error, SentenceType};

use crate::{System, TypeName};

/// The refusals of a line, by document 01's table.
///
/// The crate has no `UnknownType`, `Number` or `BadTime`: it gives a parsing
/// error there, or accepts. They stand here for answers made in another way.
#[derive(Clone, Debug, PartialEq, Eq)]
pub enum Refusal {
    BadUtf8,
    NotAscii,
    TooLong(usize),
    Syntax,
    UnknownType,
    Checksum { calculated: u8, found: u8 },
    UnknownTalker([u8; 2]),
    SystemMismatch { talker: System, tail: System },
    Number,
    WrongHeader { expected: TypeName, found: TypeName },
    BadTime,
}

impl Refusal {
    /// The refusal's number in document 01.
    pub fn number(&self) -> u8 {
        match self {
            Refusal::BadUtf8 => 1,
            Refusal::NotAscii => 2,
            Refusal::TooLong(_) => 3,
            Refusal::Syntax => 4,
            Refusal::UnknownType => 5,
            Refusal::Checksum { .. } => 6,
            Refusal::UnknownTalker(_) => 7,
            Refusal::SystemMismatch { .. } => 8,
            Refusal::Number => 9,
            Refusal::WrongHeader { .. } => 10,
            Refusal::BadTime => 11,
        }
    }

    /// The refusal that stands for an error of the crate.
    ///
    /// # Panics
    ///
    /// On an error that document 01 has no refusal for. No line leads to one.
    pub(crate) fn of_crate(error: Error<'_>) -> Self {
        match error {
            Error::Utf8Decoding => Refusal::BadUtf8,
            Error::ASCII => Refusal::NotAscii,
            Error::SentenceLength(length) => Refusal::TooLong(length),
            Error::ParsingError(_) => Refusal::Syntax,
            Error::ChecksumMismatch { calculated, found } => {
                Refusal::Checksum { calculated, found }
            }
            Error::UnknownGnssType(talker) => Refusal::UnknownTalker(letters(talker)),
            Error::SystemIdMismatch {
                talker_sys_id,
                tail_sys_id,
            } => Refusal::SystemMismatch {
                talker: talker_sys_id.into(),
                tail: tail_sys_id.into(),
            },
            Error::WrongSentenceHeader { expected, found } => Refusal::WrongHeader {
                expected: type_name(expected),
                found: type_name(found),
            },
            Error::ParameterLength { .. }
            | Error::Unsupported(_)
            | Error::Unknown(_)
            | Error::EmptyNavConfig
            | Error::UnknownTalkerId { .. }
            | Error::DisabledSentence => {
                panic!("document 01 has no refusal for the crate's error {error:?}")
            }
        }
    }
}

fn type_name(sentence_type: SentenceType) -> TypeName {
    letters(sentence_type.as_str())
}

/// Framing takes exactly two bytes of talker and three of type.
fn letters<const N: usize>(text: &str) -> [u8; N] {
    text.as_bytes()
        .try_into()
        .unwrap_or_else(|_| panic!("the crate named {text:?}, which is not {N} bytes long"))
}
