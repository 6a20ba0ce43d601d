use std::fmt;

use crate::words::{Unfit, Words};

/// A satellite system.
#[derive(Clone, Copy, Debug, PartialEq, Eq, PartialOrd, Ord, Hash)]
#[repr(u8)]
#[non_exhaustive]
pub enum System {
    /// The system of the USA.
    Gps = 1,
    /// The system of Russia.
    Glonass = 2,
    /// The system of the European Union.
    Galileo = 3,
    /// The system of China.
    BeiDou = 4,
    /// The system of Japan.
    Qzss = 5,
    /// The system of India.
    NavIc = 6,
}

impl System {
    /// All systems, in the order of their numbers.
    pub const ALL: [System; 6] = [
        System::Gps,
        System::Glonass,
        System::Galileo,
        System::BeiDou,
        System::Qzss,
        System::NavIc,
    ];

    /// The system's number, as `docs/LISTS.md` has it; a GSA sentence knows the first four.
    pub fn number(self) -> u8 {
        self as u8
    }

    /// The system's name.
    pub fn name(self) -> &'static str {
        match self {
            System::Gps => "GPS",
            System::Glonass => "GLONASS",
            System::Galileo => "Galileo",
            System::BeiDou => "BeiDou",
            System::Qzss => "QZSS",
            System::NavIc => "NavIC",
        }
    }

    pub(crate) fn of(words: &Words, at: usize) -> Result<Self, Unfit> {
        let number: u8 = words.number(at)?;
        System::ALL
            .into_iter()
            .find(|system| system.number() == number)
            .ok_or_else(|| words.unfit(at))
    }
}

impl fmt::Display for System {
    fn fmt(&self, f: &mut fmt::Formatter) -> fmt::Result {
        f.write_str(self.name())
    }
}
