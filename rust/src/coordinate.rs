use std::{
    fmt,
    hash::{Hash, Hasher},
};

use crate::{
    places::{COORDINATE_DEGREES, COORDINATE_LETTER, COORDINATE_SIGN, COORDINATE_SIZE},
    words::{Unfit, Words},
};

letters! {
    /// The half of the earth that a coordinate's letter names.
    Hemisphere {
        /// Latitudes, counted from the equator up.
        North = b'N',
        /// Latitudes, counted from the equator down: what the digits say is negated.
        South = b'S',
        /// Longitudes, counted from Greenwich to the east.
        East = b'E',
        /// Longitudes, counted from Greenwich to the west: what the digits say is negated.
        West = b'W',
    }
}

/// A latitude or a longitude: exactly, and as a float. Two are equal if they
/// have the same bits.
///
/// The sentence sets no range beyond its digits: a latitude of 99 degrees is
/// read. Minutes below zero count against the degrees, so that the place may
/// lie in the other half of the earth than the letter names: `00-30,N` is half
/// a degree to the south.
#[derive(Clone, Copy, Debug)]
pub struct Coordinate {
    /// Billionths of a minute of arc, degrees included; below zero where the
    /// place lies to the south or west, whatever its letter.
    pub billionths: i64,
    /// The letter of the sentence.
    pub hemisphere: Hemisphere,
    /// Degrees, with the sign of the count; zero is minus zero under S and W.
    pub degrees: f64,
}

/// A place on the earth.
#[derive(Clone, Copy, Debug, PartialEq, Eq, Hash)]
pub struct Position {
    /// North or south of the equator.
    pub latitude: Coordinate,
    /// East or west of Greenwich.
    pub longitude: Coordinate,
}

impl Coordinate {
    fn of(words: &Words, at: usize) -> Result<Self, Unfit> {
        let minus = words.flag(at + COORDINATE_SIGN)?;
        let size: i64 = words.number(at + COORDINATE_SIZE)?;
        Ok(Coordinate {
            billionths: if minus { -size } else { size },
            hemisphere: Hemisphere::of(words, at + COORDINATE_LETTER)?,
            degrees: f64::from_bits(words.word(at + COORDINATE_DEGREES)?),
        })
    }

    fn bits(&self) -> (i64, Hemisphere, u64) {
        (self.billionths, self.hemisphere, self.degrees.to_bits())
    }
}

impl PartialEq for Coordinate {
    fn eq(&self, other: &Self) -> bool {
        self.bits() == other.bits()
    }
}

impl Eq for Coordinate {}

impl Hash for Coordinate {
    fn hash<H: Hasher>(&self, state: &mut H) {
        self.bits().hash(state);
    }
}

impl Position {
    /// One that has its latitude and its longitude at these places.
    pub(crate) fn of(words: &Words, latitude: usize, longitude: usize) -> Result<Self, Unfit> {
        Ok(Position {
            latitude: Coordinate::of(words, latitude)?,
            longitude: Coordinate::of(words, longitude)?,
        })
    }
}

/// Whole degrees, minutes with all nine decimals, and the letter, exactly: as
/// in `51 30.500000000 N`. A minus sign stands in front where the place lies on
/// the other side than its letter says: `-0 30.000000000 N` is to the south.
impl fmt::Display for Coordinate {
    fn fmt(&self, f: &mut fmt::Formatter) -> fmt::Result {
        let is_other_side = match self.hemisphere {
            Hemisphere::North | Hemisphere::East => self.billionths < 0,
            Hemisphere::South | Hemisphere::West => self.billionths > 0,
        };
        let sign = if is_other_side { "-" } else { "" };
        let minutes = self.billionths.unsigned_abs() / 1_000_000_000;
        let billionths = self.billionths.unsigned_abs() % 1_000_000_000;
        let (degrees, minutes) = (minutes / 60, minutes % 60);
        let letter = self.hemisphere.letter();
        write!(f, "{sign}{degrees} {minutes:02}.{billionths:09} {letter}")
    }
}
