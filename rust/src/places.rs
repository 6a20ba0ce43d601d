//! The places of words, by the names that `include/nmea.h` has behind `NMEA_`.
//! Those of a part are counted from the part's own place.

/// The constants, and for the test a list of them.
macro_rules! named {
    ($($name:ident: $type:ty = $number:literal;)+) => {
        $(pub(crate) const $name: $type = $number;)+

        #[cfg(test)]
        const ALL: &[(&str, u64)] = &[$((stringify!($name), $number)),+];
    };
}

named! {
    KIND: usize = 0;
    TALKER: usize = 1;

    RMC: u64 = 1;
    GSA: u64 = 2;
    GSV: u64 = 3;
    OTHER: u64 = 4;
    REFUSED: u64 = 5;
    GGA: u64 = 6;
    GLL: u64 = 7;
    VTG: u64 = 8;

    RMC_TIME: usize = 3;
    RMC_STATUS: usize = 8;
    RMC_POSITION: usize = 9;
    RMC_LATITUDE: usize = 10;
    RMC_LONGITUDE: usize = 14;
    RMC_SPEED: usize = 18;
    RMC_COURSE: usize = 23;
    RMC_DATE: usize = 28;
    RMC_VARIATION: usize = 32;
    RMC_MODE: usize = 37;
    RMC_NAVIGATION: usize = 38;

    GSA_MODE: usize = 3;
    GSA_FIX: usize = 4;
    GSA_SYSTEM: usize = 5;
    GSA_DOPS: usize = 6;
    GSA_PDOP: usize = 7;
    GSA_HDOP: usize = 11;
    GSA_VDOP: usize = 15;
    GSA_COUNT: usize = 19;
    GSA_SATELLITES: usize = 20;

    GSV_SYSTEM: usize = 3;
    GSV_SENTENCES: usize = 4;
    GSV_NUMBER: usize = 5;
    GSV_VIEW: usize = 6;
    GSV_ENTRIES: usize = 7;

    GGA_TIME: usize = 3;
    GGA_POSITION: usize = 8;
    GGA_LATITUDE: usize = 9;
    GGA_LONGITUDE: usize = 13;
    GGA_FIX: usize = 17;
    GGA_SATELLITES: usize = 18;
    GGA_HDOP: usize = 20;
    GGA_ALTITUDE: usize = 25;
    GGA_GEOID: usize = 30;

    GLL_POSITION: usize = 3;
    GLL_LATITUDE: usize = 4;
    GLL_LONGITUDE: usize = 8;
    GLL_TIME: usize = 12;
    GLL_STATUS: usize = 17;
    GLL_MODE: usize = 18;

    VTG_COURSE: usize = 3;
    VTG_SPEED: usize = 8;

    OTHER_TYPE: usize = 3;

    REFUSED_NUMBER: usize = 1;
    REFUSED_VALUES: usize = 3;

    TIME_HOUR: usize = 1;
    TIME_MINUTE: usize = 2;
    TIME_SECOND: usize = 3;
    TIME_NANOSECOND: usize = 4;

    DATE_YEAR: usize = 1;
    DATE_MONTH: usize = 2;
    DATE_DAY: usize = 3;

    COORDINATE_SIGN: usize = 0;
    COORDINATE_SIZE: usize = 1;
    COORDINATE_LETTER: usize = 2;
    COORDINATE_DEGREES: usize = 3;

    DECIMAL_SIGN: usize = 1;
    DECIMAL_SIZE: usize = 2;
    DECIMAL_DECIMALS: usize = 3;
    DECIMAL_VALUE: usize = 4;

    DOP_SIGN: usize = 0;
    DOP_SIZE: usize = 1;
    DOP_DECIMALS: usize = 2;
    DOP_VALUE: usize = 3;

    SPEED_UNIT: usize = 1;
    SPEED_SIGN: usize = 2;
    SPEED_SIZE: usize = 3;
    SPEED_DECIMALS: usize = 4;
    SPEED_VALUE: usize = 5;
    SPEED_KNOTS: usize = 6;

    ENTRIES: usize = 4;
    ENTRY_WORDS: usize = 8;
    ENTRY_SATELLITE: usize = 1;
    ENTRY_ELEVATION: usize = 2;
    ENTRY_AZIMUTH: usize = 4;
    ENTRY_SIGNAL: usize = 6;

    OPTION_NUMBER: usize = 1;

    TOTALS_LINES: usize = 0;
    TOTALS_BLANK: usize = 1;
    TOTALS_ACCEPTED: usize = 2;
    TOTALS_REFUSED: usize = 3;
    TOTALS_GROUPS: usize = 4;

    ROW_SYSTEM: usize = 0;
    ROW_SENTENCES: usize = 1;
    ROW_VIEW: usize = 3;
    ROW_COUNT: usize = 4;
    ROW_ENTRIES: usize = 5;
}

#[test]
fn the_header_has_the_same_places() {
    let header = include_str!("../../include/nmea.h");
    for (name, number) in ALL {
        let define = format!("#define NMEA_{name} {number}");
        assert!(header.lines().any(|line| line == define), "{define}");
    }
}
