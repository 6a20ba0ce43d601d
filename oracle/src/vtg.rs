use nmea::sentences::VtgData;

use crate::F32Bits;

/// A VTG record.
#[derive(Clone, Debug, PartialEq, Eq)]
pub struct Vtg {
    /// To true north.
    pub course: Option<F32Bits>,
    /// In knots, also where it was written in km/h.
    pub speed: Option<F32Bits>,
}

impl From<VtgData> for Vtg {
    fn from(data: VtgData) -> Self {
        Vtg {
            course: data.true_course.map(f32::to_bits),
            speed: data.speed_over_ground.map(f32::to_bits),
        }
    }
}
