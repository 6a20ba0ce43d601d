use std::fmt;

use crate::{
    places::{
        DATE_DAY, DATE_MONTH, DATE_YEAR, TIME_HOUR, TIME_MINUTE, TIME_NANOSECOND, TIME_SECOND,
    },
    words::{Unfit, Words},
};

/// A time of the day, UTC.
#[derive(Clone, Copy, Debug, PartialEq, Eq, PartialOrd, Ord, Hash)]
pub struct Time {
    /// 0 to 23.
    pub hour: u8,
    /// 0 to 59.
    pub minute: u8,
    /// 0 to 59.
    pub second: u8,
    /// Below 1,000,000,000.
    pub nanosecond: u32,
}

/// A day of the Gregorian calendar.
#[derive(Clone, Copy, Debug, PartialEq, Eq, PartialOrd, Ord, Hash)]
pub struct Date {
    /// 1983 to 2082.
    pub year: u16,
    /// 1 to 12.
    pub month: u8,
    /// 1 to the last that the month has.
    pub day: u8,
}

impl Time {
    pub(crate) fn of(words: &Words, at: usize) -> Result<Self, Unfit> {
        Ok(Time {
            hour: words.number(at + TIME_HOUR)?,
            minute: words.number(at + TIME_MINUTE)?,
            second: words.number(at + TIME_SECOND)?,
            nanosecond: words.number(at + TIME_NANOSECOND)?,
        })
    }
}

impl Date {
    pub(crate) fn of(words: &Words, at: usize) -> Result<Self, Unfit> {
        Ok(Date {
            year: words.number(at + DATE_YEAR)?,
            month: words.number(at + DATE_MONTH)?,
            day: words.number(at + DATE_DAY)?,
        })
    }

    /// The days from 1970-01-01 to this one.
    pub fn days_since_1970(&self) -> i64 {
        let [year, month, day] = [self.year.into(), self.month.into(), self.day.into()];
        // Years from March on, so that a leap day is the last of its year: 153 days are five months.
        let [year, month]: [i64; 2] = match month {
            1 | 2 => [year - 1, month + 9],
            _ => [year, month - 3],
        };
        let leap_days = year.div_euclid(4) - year.div_euclid(100) + year.div_euclid(400);
        365 * year + leap_days + (153 * month + 2).div_euclid(5) + day - 719_469
    }
}

/// As ISO 8601 writes it, with all nine decimals.
impl fmt::Display for Time {
    fn fmt(&self, f: &mut fmt::Formatter) -> fmt::Result {
        let Time {
            hour,
            minute,
            second,
            nanosecond,
        } = self;
        write!(f, "{hour:02}:{minute:02}:{second:02}.{nanosecond:09}")
    }
}

/// As ISO 8601 writes it.
impl fmt::Display for Date {
    fn fmt(&self, f: &mut fmt::Formatter) -> fmt::Result {
        write!(f, "{:04}-{:02}-{:02}", self.year, self.month, self.day)
    }
}
