use nmea::sentences::GllData;

use crate::{rmc::mode_letter, F64Bits, Time};

/// A GLL record. Status and mode are the sentence's letters.
#[derive(Clone, Debug, PartialEq, Eq)]
pub struct Gll {
    /// In degrees, negative in the south.
    pub latitude: Option<F64Bits>,
    /// In degrees, negative in the west.
    pub longitude: Option<F64Bits>,
    pub time: Option<Time>,
    pub status: char,
    pub mode: Option<char>,
}

impl From<GllData> for Gll {
    fn from(data: GllData) -> Self {
        Gll {
            latitude: data.latitude.map(f64::to_bits),
            longitude: data.longitude.map(f64::to_bits),
            time: data.fix_time.map(Time::from),
            status: if data.valid { 'A' } else { 'V' },
            mode: data.faa_mode.map(mode_letter),
        }
    }
}
