use crate::{
    places::{GLL_LATITUDE, GLL_LONGITUDE, GLL_MODE, GLL_POSITION, GLL_STATUS, GLL_TIME, TALKER},
    words::{Unfit, Words},
    Mode, Position, Talker, Time,
};

letters! {
    /// Whether the data of a GLL sentence hold.
    #[non_exhaustive]
    DataStatus {
        /// They do.
        Valid = b'A',
        /// They do not.
        NotValid = b'V',
    }
}

/// A GLL sentence: where, and when.
#[derive(Clone, Copy, Debug, PartialEq, Eq, Hash)]
#[non_exhaustive]
pub struct Gll {
    /// Who sent it.
    pub talker: Talker,
    /// Where the receiver is.
    pub position: Option<Position>,
    /// When the fix was made; the sentence has no day.
    pub time: Option<Time>,
    /// Whether the data hold.
    pub status: DataStatus,
    /// How the fix was made.
    pub mode: Option<Mode>,
}

impl Gll {
    pub(crate) fn of(words: &Words) -> Result<Self, Unfit> {
        Ok(Gll {
            talker: Talker::of(words, TALKER)?,
            position: words.part(GLL_POSITION, |words, _| {
                Position::of(words, GLL_LATITUDE, GLL_LONGITUDE)
            })?,
            time: words.part(GLL_TIME, Time::of)?,
            status: DataStatus::of(words, GLL_STATUS)?,
            mode: words.unless_zero(GLL_MODE, Mode::of)?,
        })
    }
}
