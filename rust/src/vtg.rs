use std::{
    fmt,
    hash::{Hash, Hasher},
};

use crate::{
    places::{SPEED_KNOTS, SPEED_UNIT, TALKER, VTG_COURSE, VTG_SPEED},
    words::{Unfit, Words},
    Decimal, Talker,
};

letters! {
    /// The unit that the speed of a VTG sentence is written in.
    #[non_exhaustive]
    SpeedUnit {
        /// Knots.
        Knots = b'N',
        /// Kilometres per hour.
        KilometresPerHour = b'K',
    }
}

/// The speed of a VTG sentence: as it is written, and in knots. Two are equal
/// if they have the same bits.
///
/// ```
/// use proved_nmea::{read, Sentence, SpeedUnit};
///
/// let speed = |line: &[u8]| match read(line) {
///     Ok(Sentence::Vtg(track)) => track.speed,
///     other => panic!("it is a VTG sentence: {other:?}"),
/// };
/// let knots = speed(b"$GPVTG,360.0,T,348.7,M,005.5,N,010.2,K*40").expect("a speed");
/// assert_eq!((knots.unit, knots.knots), (SpeedUnit::Knots, 5.5));
/// // Kilometres per hour are read in the place of N alone, or behind it.
/// let kilometres = speed(b"$GPVTG,,T,,M,,N10.2,K*7F").expect("a speed");
/// assert_eq!(kilometres.to_string(), "10.2 km/h");
/// assert_eq!(kilometres.knots, 10.2 / 1.852);
/// assert_eq!(speed(b"$GPVTG,,T,,M,,N,010.2,K*63"), None);
/// ```
#[derive(Clone, Copy, Debug)]
pub struct Speed {
    /// The decimal of the sentence, in its unit.
    pub written: Decimal,
    /// That unit.
    pub unit: SpeedUnit,
    /// Knots: the decimal's float, of kilometres per hour divided once by 1.852.
    pub knots: f32,
}

/// A VTG sentence: which way, and how fast.
#[derive(Clone, Copy, Debug, PartialEq, Eq, Hash)]
#[non_exhaustive]
pub struct Vtg {
    /// Who sent it.
    pub talker: Talker,
    /// Course over ground, in degrees from true north.
    pub course: Option<Decimal>,
    /// Speed over ground: in knots where the sentence has it so, else in
    /// kilometres per hour.
    pub speed: Option<Speed>,
}

impl Speed {
    fn of(words: &Words, at: usize) -> Result<Self, Unfit> {
        Ok(Speed {
            written: Decimal::of_speed(words, at)?,
            unit: SpeedUnit::of(words, at + SPEED_UNIT)?,
            knots: f32::from_bits(words.number(at + SPEED_KNOTS)?),
        })
    }

    fn bits(&self) -> (Decimal, SpeedUnit, u32) {
        (self.written, self.unit, self.knots.to_bits())
    }
}

impl PartialEq for Speed {
    fn eq(&self, other: &Self) -> bool {
        self.bits() == other.bits()
    }
}

impl Eq for Speed {}

impl Hash for Speed {
    fn hash<H: Hasher>(&self, state: &mut H) {
        self.bits().hash(state);
    }
}

impl Vtg {
    pub(crate) fn of(words: &Words) -> Result<Self, Unfit> {
        Ok(Vtg {
            talker: Talker::of(words, TALKER)?,
            course: words.part(VTG_COURSE, Decimal::of)?,
            speed: words.part(VTG_SPEED, Speed::of)?,
        })
    }
}

/// The exact decimal and its unit, as in `5.5 knots` or `10.2 km/h`.
impl fmt::Display for Speed {
    fn fmt(&self, f: &mut fmt::Formatter) -> fmt::Result {
        write!(f, "{} {}", self.written, self.unit)
    }
}

/// `knots` or `km/h`.
impl fmt::Display for SpeedUnit {
    fn fmt(&self, f: &mut fmt::Formatter) -> fmt::Result {
        f.write_str(match self {
            SpeedUnit::Knots => "knots",
            SpeedUnit::KilometresPerHour => "km/h",
        })
    }
}
