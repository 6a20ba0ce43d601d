//! Bodies of sentences, each with the marks of one place.

/// Places of two bytes, and of a letter with the byte behind it.
pub(super) const TWO_BYTES: [&str; 108] = [
    // Hour, minute and second.
    "GPRMC,??1500.25,A,,,,,,,,,",
    "GPRMC,10??00.25,A,,,,,,,,,",
    "GPRMC,1015??.25,A,,,,,,,,,",
    "GPRMC,1015??,A,,,,,,,,,",
    "GPRMC,101559.??,A,,,,,,,,,",
    "GPRMC,101559??,A,,,,,,,,,",
    // Status.
    "GPRMC,??A,,,,,,,,,",
    "GPRMC,,??,,,,,,,,",
    // Position.
    "GPRMC,,A??,,,,,,,,",
    "GPRMC,,A,??,,,,,,",
    "GPRMC,,A,??30.5,N,00006.0,W,,,,,",
    "GPRMC,,A,??-30.5,N,00006.0,W,,,,,",
    "GPRMC,,A,51??,N,00006.0,W,,,,,",
    "GPRMC,,A,51??.5,N,00006.0,W,,,,,",
    "GPRMC,,A,5130.??,N,00006.0,W,,,,,",
    "GPRMC,,A,5130.5??,N,00006.0,W,,,,,",
    "GPRMC,,A,5130.5,??00006.0,W,,,,,",
    "GPRMC,,A,5130.5,N,000??,W,,,,,",
    "GPRMC,,A,5130.5,N,000??.0,W,,,,,",
    "GPRMC,,A,5130.5,N,00006.??,W,,,,,",
    "GPRMC,,A,5130.5,N,00006.0??,W,,,,,",
    "GPRMC,,A,5130.5,N,00006.0,??,,,,",
    // Speed and course.
    "GPRMC,,A,,,,,??,,,,",
    "GPRMC,,A,,,,,4.5??,,,,",
    "GPRMC,,A,,,,,,??,,,",
    "GPRMC,,A,,,,,,270.0??,,,",
    // Day, month and year.
    "GPRMC,,A,,,,,,,??0224,,",
    "GPRMC,,A,,,,,,,29??24,,",
    "GPRMC,,A,,,,,,,2902??,,",
    "GPRMC,,A,,,,,,,290224??",
    // Variation, mode and navigational status.
    "GPRMC,,A,,,,,,,,??,E",
    "GPRMC,,A,,,,,,,,020.3??",
    "GPRMC,,A,,,,,,,,020.3,??",
    "GPRMC,,A,,,,,,,,020.3,??,S",
    "GPRMC,,A,,,,,,,,020.3,E??A",
    "GPRMC,,A,,,,,,,,??",
    "GPRMC,,A,,,,,,,,,,??",
    "GPRMC,,A,,,,,,,,,,A??",
    "GPRMC,,A,,,,,,,,,,A,??",
    // Mode and fix.
    "GPGSA,??3,16,3.6,2.1,2.2,1",
    "GPGSA,A,??16,3.6,2.1,2.2,1",
    // Satellites and DOPs.
    "GPGSA,A,3,??,3.6,2.1,2.2,1",
    "GPGSA,A,3,16??3.6,2.1,2.2,1",
    "GPGSA,A,3,16,??,2.1,2.2,1",
    "GPGSA,A,3,16,3.6,??,2.2,1",
    "GPGSA,A,3,16,3.6,2.1,??,1",
    "GPGSA,A,3,16,3.6,2.1,2.2??",
    "GPGSA,A,3,16,3.6,2.1,2.2,??",
    "GPGSA,A,1,,,,??",
    // Counts and entries.
    "GPGSV,??,1,11,03,03,111,00,04,15,270,00",
    "GPGSV,3,??,11,03,03,111,00,04,15,270,00",
    "GPGSV,3,1,??,03,03,111,00,04,15,270,00",
    "GPGSV,3,1,11,??,03,111,00,04,15,270,00",
    "GPGSV,3,1,11,03,??,111,00,04,15,270,00",
    "GPGSV,3,1,11,03,03,111,00,04,15,270,??",
    // GGA: time, position and fix.
    "GPGGA,??3519.5,,,,,1,,,,,,",
    "GPGGA,12??19.5,,,,,1,,,,,,",
    "GPGGA,1235??,,,,,1,,,,,,",
    "GPGGA,??,,,,1,,,,,,",
    "GPGGA,,??,,,1,,,,,,",
    "GPGGA,,??07.038,N,01131.0,E,1,,,,,,",
    "GPGGA,,48??.5,N,01131.0,E,1,,,,,,",
    "GPGGA,,4807.038??01131.0,E,1,,,,,,",
    "GPGGA,,4807.038,??01131.0,E,1,,,,,,",
    "GPGGA,,4807.038,N,011??,E,1,,,,,,",
    "GPGGA,,4807.038,N,01131.0,??1,,,,,,",
    "GPGGA,,4807.038,N,01131.0,E??,,,,,,",
    "GPGGA,,,,,,??,,,,,",
    "GPGGA,,,,,??,,,,,,",
    // Satellites, HDOP, altitude, geoid separation and their units.
    "GPGGA,,,,,,1,??,,,,,",
    "GPGGA,,,,,,1,08??0.9,545.4,M,46.9,M,,",
    "GPGGA,,,,,,1,08,??,545.4,M,46.9,M,,",
    "GPGGA,,,,,,1,08,0.9??545.4,M,46.9,M,,",
    "GPGGA,,,,,,1,08,0.9,??,M,46.9,M,,",
    "GPGGA,,,,,,1,08,0.9,545.4??M,46.9,M,,",
    "GPGGA,,,,,,1,08,0.9,545.4,??46.9,M,,",
    "GPGGA,,,,,,1,08,0.9,545.4,M,??,M,,",
    "GPGGA,,,,,,1,08,0.9,545.4,M,46.9??",
    "GPGGA,,,,,,1,08,0.9,545.4,M,??",
    // GLL: position, time, status and mode.
    "GPGLL,??,,123519,A,A",
    "GPGLL,??16.45,N,12311.12,W,,A,A",
    "GPGLL,49??,N,12311.12,W,,A,A",
    "GPGLL,4916.45,??12311.12,W,,A,A",
    "GPGLL,4916.45,N,123??.12,W,,A,A",
    "GPGLL,4916.45,N,12311.12,??,A,A",
    "GPGLL,,,,,??3519,A,A",
    "GPGLL,,,,,12??19,A,A",
    "GPGLL,,,,,1235??,A,A",
    "GPGLL,,,,,??A,A",
    "GPGLL,,,,,,??",
    "GPGLL,,,,,,??A",
    "GPGLL,,,,,,A??",
    "GPGLL,,,,,,A,??",
    "GPGLL,,,,,,V,??,A",
    // VTG: both courses, knots and km/h, and their units.
    "GPVTG,??,T,034.4,M,005.5,N,010.2,K",
    "GPVTG,054.7??T,034.4,M,005.5,N,010.2,K",
    "GPVTG,054.7,??034.4,M,005.5,N,010.2,K",
    "GPVTG,054.7,T,??,M,005.5,N,010.2,K",
    "GPVTG,054.7,T,034.4??M,005.5,N,010.2,K",
    "GPVTG,054.7,T,034.4,??005.5,N,010.2,K",
    "GPVTG,054.7,T,034.4,M,??,N,010.2,K",
    "GPVTG,054.7,T,034.4,M,005.5??N,010.2,K",
    "GPVTG,054.7,T,034.4,M,005.5,??010.2,K",
    "GPVTG,,,,,,??",
    "GPVTG,,,,,,??,",
    "GPVTG,,,,,,N??,",
    "GPVTG,,,,,,N1??",
    "GPVTG,,,,,,N,??",
];

/// Places of three bytes, all decimals among them.
pub(super) const THREE_BYTES: [&str; 37] = [
    "GPRMC,1015???,A,,,,,,,,,",
    "GPRMC,,A,51???,N,00006.0,W,,,,,",
    "GPRMC,,A,5130.5,N,???06.0,W,,,,,",
    "GPRMC,,A,5130.5,N,???-06.0,W,,,,,",
    "GPRMC,,A,5130.5,N,000???,W,,,,,",
    "GPRMC,,A,,,,,???,,,,",
    "GPRMC,,A,,,,,,???,,,",
    "GPRMC,,A,,,,,,,???,,",
    "GPRMC,,A,,,,,,,,???,W",
    "GPRMC,,A,,,,,,,,???",
    "GPGSA,A,3,???,3.6,2.1,2.2",
    "GPGSA,A,3,16,???,2.1,2.2",
    "GPGSA,A,3,16,3.6,???,2.2",
    "GPGSA,A,3,16,3.6,2.1,???",
    "GPGSA,A,3,16,3.6,2.1,2.2,???",
    "GPGSA,A,1,,,,???",
    "GPGSV,???,1,11,03,03,111,00",
    "GPGSV,3,1,???,03,03,111,00",
    "GPGSV,3,1,11,???,03,111,00,04,15,270,00",
    "GPGSV,3,1,11,03,03,???,00,04,15,270,00",
    "GPGSV,3,1,11,03,03,111,00???",
    "GPGGA,1235???,,,,,1,,,,,,",
    "GPGGA,,48???,N,01131.0,E,1,,,,,,",
    "GPGGA,,4807.038,N,???31.0,E,1,,,,,,",
    "GPGGA,,,,,,1,???,,,,,",
    "GPGGA,,,,,,1,,???,,,,",
    "GPGGA,,,,,,1,,,???,,,",
    "GPGGA,,,,,,1,,,,,???,",
    "GPGGA,,,,,,1,,,,,46.9???",
    "GPGLL,,,,,1235???,A,",
    "GPGLL,,,,,,???",
    "GPGLL,,,,,,A???",
    "GPVTG,???,,,,,,",
    "GPVTG,,,???,,,,",
    "GPVTG,,,,,???,,",
    "GPVTG,,,,,,???,",
    "GPVTG,,,,,,N???,",
];

/// The places of short decimals in RMC and GSA; the variation has two, and PDOP
/// is the last.
pub(super) const DECIMALS: [&str; 7] = [
    "GPRMC,,A,,,,,?,,,,",
    "GPRMC,,A,,,,,,?,,,",
    "GPRMC,,A,,,,,,,,?,E",
    "GPRMC,,A,,,,,,,,?,W",
    "GPGSA,A,3,16,3.6,?,2.2",
    "GPGSA,A,3,16,3.6,2.1,?",
    "GPGSA,A,3,16,?,2.1,2.2",
];

/// Those in GGA and VTG, but for km/h.
pub(super) const MORE_DECIMALS: [&str; 6] = [
    "GPGGA,,,,,,1,,?,,,,",
    "GPGGA,,,,,,1,,,?,,,",
    "GPGGA,,,,,,1,,,,,?,",
    "GPVTG,?,,,,,,",
    "GPVTG,,,?,,,,",
    "GPVTG,,,,,?,,",
];

/// The two of km/h: behind the N, and in its place.
pub(super) const KILOMETRES: [&str; 2] = ["GPVTG,,,,,,N?,", "GPVTG,,,,,,?,"];

/// The places of a latitude and of a longitude, each to both sides, in each
/// type that has a position. Behind them stand the width of the degrees and
/// their bound.
pub(super) const ANGLES: [([&str; 3], usize, u32); 4] = [
    (
        [
            "GPRMC,,A,?,N,0000,E,,,,,",
            "GPGGA,,?,N,0000,E,1,,,,,,",
            "GPGLL,?,N,0000,E,,A,",
        ],
        2,
        100,
    ),
    (
        [
            "GPRMC,,A,?,S,0000,E,,,,,",
            "GPGGA,,?,S,0000,E,1,,,,,,",
            "GPGLL,?,S,0000,E,,A,",
        ],
        2,
        100,
    ),
    (
        [
            "GPRMC,,A,000,N,?,E,,,,,",
            "GPGGA,,000,N,?,E,1,,,,,,",
            "GPGLL,000,N,?,E,,A,",
        ],
        3,
        256,
    ),
    (
        [
            "GPRMC,,A,000,N,?,W,,,,,",
            "GPGGA,,000,N,?,W,1,,,,,,",
            "GPGLL,000,N,?,W,,A,",
        ],
        3,
        256,
    ),
];
