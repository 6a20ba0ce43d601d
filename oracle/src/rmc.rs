use chrono::{Datelike, NaiveDate, NaiveTime, Timelike};
use nmea::sentences::{
    rmc::{RmcNavigationStatus, RmcStatusOfFix},
    FaaMode, RmcData,
};

use crate::{F32Bits, F64Bits};

/// An RMC record. Status, mode and navigation status are the sentence's letters.
#[derive(Clone, Debug, PartialEq, Eq)]
pub struct Rmc {
    pub time: Option<Time>,
    pub status: char,
    /// In degrees, negative in the south.
    pub latitude: Option<F64Bits>,
    /// In degrees, negative in the west.
    pub longitude: Option<F64Bits>,
    pub speed: Option<F32Bits>,
    pub course: Option<F32Bits>,
    pub date: Option<Date>,
    /// Negative to the west.
    pub variation: Option<F32Bits>,
    pub mode: Option<char>,
    pub navigation: Option<char>,
}

/// A time of day.
#[derive(Clone, Copy, Debug, PartialEq, Eq)]
pub struct Time {
    pub hour: u32,
    pub minute: u32,
    pub second: u32,
    pub nanosecond: u32,
}

/// A day of the Gregorian calendar.
#[derive(Clone, Copy, Debug, PartialEq, Eq)]
pub struct Date {
    pub year: i32,
    pub month: u32,
    pub day: u32,
}

impl From<RmcData> for Rmc {
    fn from(data: RmcData) -> Self {
        Rmc {
            time: data.fix_time.map(Time::from),
            status: status_letter(data.status_of_fix),
            latitude: data.lat.map(f64::to_bits),
            longitude: data.lon.map(f64::to_bits),
            speed: data.speed_over_ground.map(f32::to_bits),
            course: data.true_course.map(f32::to_bits),
            date: data.fix_date.map(Date::from),
            variation: data.magnetic_variation.map(f32::to_bits),
            mode: data.faa_mode.map(mode_letter),
            navigation: data.nav_status.map(navigation_letter),
        }
    }
}

impl From<NaiveTime> for Time {
    fn from(time: NaiveTime) -> Self {
        Time {
            hour: time.hour(),
            minute: time.minute(),
            second: time.second(),
            nanosecond: time.nanosecond(),
        }
    }
}

impl From<NaiveDate> for Date {
    fn from(date: NaiveDate) -> Self {
        Date {
            year: date.year(),
            month: date.month(),
            day: date.day(),
        }
    }
}

fn status_letter(status: RmcStatusOfFix) -> char {
    match status {
        RmcStatusOfFix::Autonomous => 'A',
        RmcStatusOfFix::Differential => 'D',
        RmcStatusOfFix::Invalid => 'V',
    }
}

pub(crate) fn mode_letter(mode: FaaMode) -> char {
    match mode {
        FaaMode::Autonomous => 'A',
        FaaMode::Caution => 'C',
        FaaMode::Differential => 'D',
        FaaMode::Estimated => 'E',
        FaaMode::FloatRtk => 'F',
        FaaMode::Manual => 'M',
        FaaMode::DataNotValid => 'N',
        FaaMode::Precise => 'P',
        FaaMode::FixedRtk => 'R',
        FaaMode::Simulator => 'S',
        FaaMode::Unsafe => 'U',
    }
}

fn navigation_letter(status: RmcNavigationStatus) -> char {
    match status {
        RmcNavigationStatus::Autonomous => 'A',
        RmcNavigationStatus::Differential => 'D',
        RmcNavigationStatus::Estimated => 'E',
        RmcNavigationStatus::Manual => 'M',
        RmcNavigationStatus::NotValid => 'N',
        RmcNavigationStatus::Simulator => 'S',
        RmcNavigationStatus::Valid => 'V',
    }
}
