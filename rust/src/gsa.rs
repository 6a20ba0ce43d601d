use crate::{
    places::{
        GSA_COUNT, GSA_DOPS, GSA_FIX, GSA_HDOP, GSA_MODE, GSA_PDOP, GSA_SATELLITES, GSA_SYSTEM,
        GSA_VDOP, TALKER,
    },
    words::{Unfit, Words},
    Decimal, System, Talker,
};

letters! {
    /// Who chooses between two and three dimensions.
    Selection {
        /// The operator.
        Manual = b'M',
        /// The receiver.
        Automatic = b'A',
    }
}

letters! {
    /// The fix of a GSA sentence.
    Fix {
        /// No fix.
        None = b'1',
        /// A fix in two dimensions.
        TwoDimensions = b'2',
        /// A fix in three dimensions.
        ThreeDimensions = b'3',
    }
}

/// Dilutions of precision.
#[derive(Clone, Copy, Debug, PartialEq, Eq, Hash)]
pub struct Dops {
    /// Of the position.
    pub pdop: Decimal,
    /// In the horizontal plane.
    pub hdop: Decimal,
    /// In the vertical.
    pub vdop: Decimal,
}

/// A GSA sentence: the satellites of the fix and its precision.
#[derive(Clone, Debug, PartialEq, Eq, Hash)]
#[non_exhaustive]
pub struct Gsa {
    /// Who sent it.
    pub talker: Talker,
    /// Who chooses the dimensions.
    pub selection: Selection,
    /// The fix.
    pub fix: Fix,
    /// The system, where the tail or the talker names one: one of the first four.
    pub system: Option<System>,
    /// All three dilutions, or none.
    pub dops: Option<Dops>,
    /// The satellites of the fix, at most 18.
    pub satellites: Vec<u32>,
}

impl Dops {
    fn of(words: &Words) -> Result<Self, Unfit> {
        Ok(Dops {
            pdop: Decimal::of_dop(words, GSA_PDOP)?,
            hdop: Decimal::of_dop(words, GSA_HDOP)?,
            vdop: Decimal::of_dop(words, GSA_VDOP)?,
        })
    }
}

impl Gsa {
    /// The most satellites that a sentence may have.
    pub const SATELLITES: usize = 18;

    pub(crate) fn of(words: &Words) -> Result<Self, Unfit> {
        let count: usize = words.number(GSA_COUNT)?;
        if count > Gsa::SATELLITES {
            return Err(words.unfit(GSA_COUNT));
        }
        Ok(Gsa {
            talker: Talker::of(words, TALKER)?,
            selection: Selection::of(words, GSA_MODE)?,
            fix: Fix::of(words, GSA_FIX)?,
            system: words.unless_zero(GSA_SYSTEM, System::of)?,
            dops: words.part(GSA_DOPS, |words, _| Dops::of(words))?,
            satellites: (0..count)
                .map(|i| words.number(GSA_SATELLITES + i))
                .collect::<Result<_, _>>()?,
        })
    }
}
