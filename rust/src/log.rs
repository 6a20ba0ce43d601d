use std::{fmt, ops::AddAssign};

use crate::{
    abi,
    places::{TOTALS_ACCEPTED, TOTALS_BLANK, TOTALS_GROUPS, TOTALS_LINES, TOTALS_REFUSED},
    Refusal,
};

/// What a log has.
#[derive(Clone, Copy, Debug, Default, PartialEq, Eq, Hash)]
#[non_exhaustive]
pub struct Totals {
    /// Its lines: blank, accepted and refused.
    pub lines: u64,
    /// Lines with nothing but their end.
    pub blank: u64,
    /// Lines that were read, and those of known types that are not read.
    pub accepted: u64,
    /// Lines that were refused.
    pub refused: u64,
    /// Groups of satellites that stand in it, complete and in order.
    pub groups: u64,
}

/// As in `lines 5 blank 1 accepted 3 refused 1 groups 1`.
impl fmt::Display for Totals {
    fn fmt(&self, f: &mut fmt::Formatter) -> fmt::Result {
        let Totals {
            lines,
            blank,
            accepted,
            refused,
            groups,
        } = self;
        write!(
            f,
            "lines {lines} blank {blank} accepted {accepted} refused {refused} groups {groups}"
        )
    }
}

impl AddAssign for Totals {
    fn add_assign(&mut self, more: Totals) {
        self.lines += more.lines;
        self.blank += more.blank;
        self.accepted += more.accepted;
        self.refused += more.refused;
        self.groups += more.groups;
    }
}

/// The totals of a whole log of at most 65,536 bytes, by proved code; a longer
/// one is refused with [`Refusal::LogTooLong`].
pub fn walk(log: &[u8]) -> Result<Totals, Refusal> {
    let mut words = [0; abi::TOTALS];
    // With room for all five, nothing but the length is refused.
    if abi::walk(log, &mut words) != abi::DONE {
        return Err(Refusal::LogTooLong(log.len()));
    }
    Ok(Totals {
        lines: words[TOTALS_LINES],
        blank: words[TOTALS_BLANK],
        accepted: words[TOTALS_ACCEPTED],
        refused: words[TOTALS_REFUSED],
        groups: words[TOTALS_GROUPS],
    })
}
