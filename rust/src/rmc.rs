use std::time::Duration;

use crate::{
    places::{
        RMC_COURSE, RMC_DATE, RMC_LATITUDE, RMC_LONGITUDE, RMC_MODE, RMC_NAVIGATION, RMC_POSITION,
        RMC_SPEED, RMC_STATUS, RMC_TIME, RMC_VARIATION, TALKER,
    },
    words::{Unfit, Words},
    Date, Decimal, Position, Talker, Time,
};

letters! {
    /// Whether the fix of an RMC sentence holds.
    #[non_exhaustive]
    Status {
        /// A fix by the receiver alone.
        Autonomous = b'A',
        /// A fix with corrections from elsewhere.
        Differential = b'D',
        /// No valid fix.
        NotValid = b'V',
    }
}

letters! {
    /// How the fix of an RMC or a GLL sentence was made.
    #[non_exhaustive]
    Mode {
        /// By the receiver alone.
        Autonomous = b'A',
        /// Caution, a quirk of Quectel's.
        Caution = b'C',
        /// With corrections from elsewhere.
        Differential = b'D',
        /// Estimated, by dead reckoning.
        Estimated = b'E',
        /// RTK, float.
        FloatRtk = b'F',
        /// Put in by hand.
        Manual = b'M',
        /// Data not valid.
        NotValid = b'N',
        /// Precise, from NMEA 4.00 on.
        Precise = b'P',
        /// RTK, fixed.
        FixedRtk = b'R',
        /// Simulated.
        Simulated = b'S',
        /// Unsafe, a quirk of Quectel's.
        Unsafe = b'U',
    }
}

letters! {
    /// The navigational status of an RMC sentence.
    #[non_exhaustive]
    NavigationalStatus {
        /// Autonomous.
        Autonomous = b'A',
        /// Differential.
        Differential = b'D',
        /// Estimated.
        Estimated = b'E',
        /// Manual.
        Manual = b'M',
        /// Not valid.
        NotValid = b'N',
        /// Simulator.
        Simulator = b'S',
        /// Valid.
        Valid = b'V',
    }
}

/// An RMC sentence: when, where, and which way.
#[derive(Clone, Copy, Debug, PartialEq, Eq, Hash)]
#[non_exhaustive]
pub struct Rmc {
    /// Who sent it.
    pub talker: Talker,
    /// When the fix was made.
    pub time: Option<Time>,
    /// Whether it holds.
    pub status: Status,
    /// Where the receiver is.
    pub position: Option<Position>,
    /// Speed over ground, in knots.
    pub speed: Option<Decimal>,
    /// Course over ground, in degrees.
    pub course: Option<Decimal>,
    /// The day of the fix.
    pub date: Option<Date>,
    /// Magnetic variation, in degrees to the east: W negates what stands before
    /// it, so that `0,W` is minus zero, and `-0,W` zero.
    pub variation: Option<Decimal>,
    /// How the fix was made.
    pub mode: Option<Mode>,
    /// The navigational status.
    pub navigational_status: Option<NavigationalStatus>,
}

impl Rmc {
    pub(crate) fn of(words: &Words) -> Result<Self, Unfit> {
        Ok(Rmc {
            talker: Talker::of(words, TALKER)?,
            time: words.part(RMC_TIME, Time::of)?,
            status: Status::of(words, RMC_STATUS)?,
            position: words.part(RMC_POSITION, |words, _| {
                Position::of(words, RMC_LATITUDE, RMC_LONGITUDE)
            })?,
            speed: words.part(RMC_SPEED, Decimal::of)?,
            course: words.part(RMC_COURSE, Decimal::of)?,
            date: words.part(RMC_DATE, Date::of)?,
            variation: words.part(RMC_VARIATION, Decimal::of)?,
            mode: words.unless_zero(RMC_MODE, Mode::of)?,
            navigational_status: words.unless_zero(RMC_NAVIGATION, NavigationalStatus::of)?,
        })
    }

    /// The time since 1970-01-01 00:00:00 UTC, where there are a date and a
    /// time. Leap seconds are not counted, as in Unix time; no time of a
    /// sentence is within one, since second 60 is refused.
    ///
    /// `std::time::UNIX_EPOCH` and this make a `SystemTime`.
    pub fn timestamp(&self) -> Option<Duration> {
        let (date, time) = (self.date?, self.time?);
        let days = u64::try_from(date.days_since_1970()).ok()?;
        let [hour, minute, second] = [time.hour, time.minute, time.second].map(u64::from);
        let seconds = ((days * 24 + hour) * 60 + minute) * 60 + second;
        Some(Duration::from_secs(seconds) + Duration::from_nanos(time.nanosecond.into()))
    }
}
