use nmea::sentences::{
    gsa::{GsaMode1, GsaMode2},
    GsaData,
};

use crate::{F32Bits, System};

/// A GSA record.
#[derive(Clone, Debug, PartialEq, Eq)]
pub struct Gsa {
    /// M or A.
    pub mode: char,
    /// 1, 2 or 3.
    pub fix: u8,
    pub satellites: Vec<u32>,
    pub pdop: Option<F32Bits>,
    pub hdop: Option<F32Bits>,
    pub vdop: Option<F32Bits>,
    pub system: Option<System>,
}

impl From<GsaData> for Gsa {
    fn from(data: GsaData) -> Self {
        Gsa {
            mode: match data.mode1 {
                GsaMode1::Manual => 'M',
                GsaMode1::Automatic => 'A',
            },
            fix: match data.mode2 {
                GsaMode2::NoFix => 1,
                GsaMode2::Fix2D => 2,
                GsaMode2::Fix3D => 3,
            },
            satellites: data.fix_sats_prn.to_vec(),
            pdop: data.pdop.map(f32::to_bits),
            hdop: data.hdop.map(f32::to_bits),
            vdop: data.vdop.map(f32::to_bits),
            system: data.system_id.map(System::from),
        }
    }
}
