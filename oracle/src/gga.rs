use nmea::sentences::{FixType, GgaData};

use crate::{F32Bits, F64Bits, Time};

/// A GGA record.
#[derive(Clone, Debug, PartialEq, Eq)]
pub struct Gga {
    pub time: Option<Time>,
    /// In degrees, negative in the south.
    pub latitude: Option<F64Bits>,
    /// In degrees, negative in the west.
    pub longitude: Option<F64Bits>,
    /// The sentence's digit, 0 to 8.
    pub fix: char,
    pub satellites: Option<u32>,
    pub hdop: Option<F32Bits>,
    pub altitude: Option<F32Bits>,
    pub geoid: Option<F32Bits>,
}

impl From<GgaData> for Gga {
    fn from(data: GgaData) -> Self {
        Gga {
            time: data.fix_time.map(Time::from),
            latitude: data.latitude.map(f64::to_bits),
            longitude: data.longitude.map(f64::to_bits),
            fix: fix_digit(data.fix_type.expect("the crate's reader gives a fix")),
            satellites: data.fix_satellites,
            hdop: data.hdop.map(f32::to_bits),
            altitude: data.altitude.map(f32::to_bits),
            geoid: data.geoid_separation.map(f32::to_bits),
        }
    }
}

fn fix_digit(fix: FixType) -> char {
    match fix {
        FixType::Invalid => '0',
        FixType::Gps => '1',
        FixType::DGps => '2',
        FixType::Pps => '3',
        FixType::Rtk => '4',
        FixType::FloatRtk => '5',
        FixType::Estimated => '6',
        FixType::Manual => '7',
        FixType::Simulation => '8',
    }
}
