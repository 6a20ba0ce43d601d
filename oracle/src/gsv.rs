use std::array;

use nmea::{sentences::GsvData, Satellite};

use crate::{F32Bits, System};

/// A GSV record.
#[derive(Clone, Debug, PartialEq, Eq)]
pub struct Gsv {
    pub system: System,
    /// How many sentences the group has.
    pub sentences: u16,
    /// This sentence's number in the group.
    pub number: u16,
    pub in_view: u16,
    pub entries: [Option<Entry>; 4],
}

/// One satellite in view. The crate gives its whole numbers as floats.
#[derive(Clone, Copy, Debug, PartialEq, Eq)]
pub struct Entry {
    pub satellite: u32,
    pub elevation: Option<F32Bits>,
    pub azimuth: Option<F32Bits>,
    pub signal: Option<F32Bits>,
}

impl From<GsvData> for Gsv {
    fn from(data: GsvData) -> Self {
        Gsv {
            system: data.gnss_type.into(),
            sentences: data.number_of_sentences,
            number: data.sentence_num,
            in_view: data.sats_in_view,
            entries: array::from_fn(|i| data.sats_info[i].as_ref().map(Entry::from)),
        }
    }
}

impl From<&Satellite> for Entry {
    fn from(satellite: &Satellite) -> Self {
        Entry {
            satellite: satellite.prn(),
            elevation: satellite.elevation().map(f32::to_bits),
            azimuth: satellite.azimuth().map(f32::to_bits),
            signal: satellite.snr().map(f32::to_bits),
        }
    }
}
