use nmea::sentences::{gnss_type::GnssSystemId, GnssType};

use crate::{Gga, Gll, Gsa, Gsv, Refusal, Rmc, Vtg};

/// The bits of an `f32`. They tell minus zero from zero, which `==` on the
/// float does not.
pub type F32Bits = u32;

/// The bits of an `f64`.
pub type F64Bits = u64;

/// The three letters of a sentence's type.
pub type TypeName = [u8; 3];

/// The answer to one line.
#[derive(Clone, Debug, PartialEq, Eq)]
pub enum Answer {
    Rmc(Rmc),
    Gsa(Gsa),
    Gsv(Gsv),
    Gga(Gga),
    Gll(Gll),
    Vtg(Vtg),
    /// A right sentence of a known type that is not read.
    Other(TypeName),
    Refused(Refusal),
}

impl Answer {
    /// The refusal's number in document 01, 0 if the line is accepted.
    pub fn number(&self) -> u8 {
        match self {
            Answer::Refused(refusal) => refusal.number(),
            _ => 0,
        }
    }

    /// Which of the classes it is of.
    pub fn class(&self) -> Class {
        Class(match self {
            Answer::Refused(refusal) => refusal.number() - 1,
            Answer::Rmc(_) => 11,
            Answer::Gsa(_) => 12,
            Answer::Gsv(_) => 13,
            Answer::Gga(_) => 14,
            Answer::Gll(_) => 15,
            Answer::Vtg(_) => 16,
            Answer::Other(_) => 17,
        })
    }
}

/// The type of an accepted line, or the refusal.
#[derive(Clone, Copy, Debug, PartialEq, Eq, PartialOrd, Ord)]
pub struct Class(u8);

impl Class {
    const NAMES: [&str; 18] = [
        "1 BadUtf8",
        "2 NotAscii",
        "3 TooLong",
        "4 Syntax",
        "5 UnknownType",
        "6 Checksum",
        "7 UnknownTalker",
        "8 SystemMismatch",
        "9 Number",
        "10 WrongHeader",
        "11 BadTime",
        "RMC",
        "GSA",
        "GSV",
        "GGA",
        "GLL",
        "VTG",
        "Other",
    ];

    /// How many there are.
    pub const COUNT: usize = Class::NAMES.len();

    pub fn all() -> impl Iterator<Item = Class> {
        (0..Class::COUNT as u8).map(Class)
    }

    /// Its number among all.
    pub fn index(self) -> usize {
        self.0.into()
    }

    pub fn name(self) -> &'static str {
        Class::NAMES[self.index()]
    }
}

/// A satellite system.
#[derive(Clone, Copy, Debug, PartialEq, Eq)]
pub enum System {
    Gps,
    Glonass,
    Galileo,
    Beidou,
    Qzss,
    NavIc,
}

impl System {
    /// By their numbers, from 1 on.
    pub const ALL: [System; 6] = [
        System::Gps,
        System::Glonass,
        System::Galileo,
        System::Beidou,
        System::Qzss,
        System::NavIc,
    ];

    /// The system's number in docs/LISTS.md.
    pub fn number(self) -> u8 {
        1 + self as u8
    }
}

impl From<GnssType> for System {
    fn from(system: GnssType) -> Self {
        match system {
            GnssType::Gps => System::Gps,
            GnssType::Glonass => System::Glonass,
            GnssType::Galileo => System::Galileo,
            GnssType::Beidou => System::Beidou,
            GnssType::NavIC => System::NavIc,
            GnssType::Qzss => System::Qzss,
        }
    }
}

impl From<GnssSystemId> for System {
    fn from(system: GnssSystemId) -> Self {
        GnssType::from(system).into()
    }
}
