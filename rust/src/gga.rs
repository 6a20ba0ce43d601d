use crate::{
    places::{
        GGA_ALTITUDE, GGA_FIX, GGA_GEOID, GGA_HDOP, GGA_LATITUDE, GGA_LONGITUDE, GGA_POSITION,
        GGA_SATELLITES, GGA_TIME, TALKER,
    },
    words::{Unfit, Words},
    Decimal, Position, Talker, Time,
};

letters! {
    /// How the fix of a GGA sentence was made.
    #[non_exhaustive]
    FixType {
        /// No valid fix.
        Invalid = b'0',
        /// By GPS, or another system, alone.
        Gps = b'1',
        /// With corrections from elsewhere.
        DGps = b'2',
        /// By the precise position service.
        Pps = b'3',
        /// RTK, fixed.
        Rtk = b'4',
        /// RTK, float.
        FloatRtk = b'5',
        /// Estimated, by dead reckoning.
        Estimated = b'6',
        /// Put in by hand.
        Manual = b'7',
        /// Simulated.
        Simulation = b'8',
    }
}

impl FixType {
    /// Whether satellites made the fix: not so of one that is invalid,
    /// estimated, put in by hand or simulated.
    pub fn is_valid(self) -> bool {
        match self {
            FixType::Gps | FixType::DGps | FixType::Pps | FixType::Rtk | FixType::FloatRtk => true,
            FixType::Invalid | FixType::Estimated | FixType::Manual | FixType::Simulation => false,
        }
    }
}

/// A GGA sentence: when, where and how high, and by what fix.
#[derive(Clone, Copy, Debug, PartialEq, Eq, Hash)]
#[non_exhaustive]
pub struct Gga {
    /// Who sent it.
    pub talker: Talker,
    /// When the fix was made; the sentence has no day.
    pub time: Option<Time>,
    /// Where the receiver is.
    pub position: Option<Position>,
    /// How the fix was made.
    pub fix: FixType,
    /// How many satellites are tracked.
    pub satellites: Option<u32>,
    /// Dilution of precision in the horizontal plane.
    pub hdop: Option<Decimal>,
    /// Altitude above mean sea level, in metres.
    pub altitude: Option<Decimal>,
    /// Height of the geoid, which is mean sea level, above the ellipsoid of
    /// WGS84, in metres.
    pub geoid_separation: Option<Decimal>,
}

impl Gga {
    pub(crate) fn of(words: &Words) -> Result<Self, Unfit> {
        Ok(Gga {
            talker: Talker::of(words, TALKER)?,
            time: words.part(GGA_TIME, Time::of)?,
            position: words.part(GGA_POSITION, |words, _| {
                Position::of(words, GGA_LATITUDE, GGA_LONGITUDE)
            })?,
            fix: FixType::of(words, GGA_FIX)?,
            satellites: words.option(GGA_SATELLITES)?,
            hdop: words.part(GGA_HDOP, Decimal::of)?,
            altitude: words.part(GGA_ALTITUDE, Decimal::of)?,
            geoid_separation: words.part(GGA_GEOID, Decimal::of)?,
        })
    }
}
