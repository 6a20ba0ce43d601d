use crate::System;

/// The thirty types that document 01 knows.
pub const KNOWN_TYPES: [&str; 30] = [
    "AAM", "ALM", "APA", "BOD", "BWC", "BWW", "DBK", "DBS", "DPT", "GBS", "GGA", "GLL", "GNS",
    "GSA", "GST", "GSV", "HDT", "MDA", "MTW", "MWV", "RMC", "RMZ", "TTM", "TXT", "VHW", "VTG",
    "WNC", "ZDA", "ZFO", "ZTG",
];

/// The talkers of GSV, by the numbers of their systems; those of some count together.
pub(crate) const TALKERS: [&[&str]; System::ALL.len()] = [
    &["GP"],
    &["GL"],
    &["GA"],
    &["BD", "GB"],
    &["GQ", "PQ", "QZ"],
    &["GI"],
];

/// The longest line that is framed.
pub(crate) const LONGEST: usize = 102;

/// Whether document 01 answers UnknownType: the checks before the type hold,
/// and it is none of the thirty, whatever follows.
pub(crate) fn has_unknown_type(line: &[u8]) -> bool {
    line.is_ascii()
        && line.len() <= LONGEST
        && line.first() == Some(&b'$')
        && line
            .get(3..6)
            .is_some_and(|name| !KNOWN_TYPES.iter().any(|known| known.as_bytes() == name))
}
