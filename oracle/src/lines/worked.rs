use crate::{with_checksum, KNOWN_TYPES};

/// The sentences of document 01, as they stand there.
const WORKED: [&str; 16] = [
    "$GPGSV,3,1,11,03,03,111,00,04,15,270,00,06,01,010,00,13,06,292,00*74",
    "$GPGSV,3,3,11,22,42,067,42,24,14,311,43,27,05,244,00,,,,*4D",
    "$GPGSA,A,3,,,,,,16,18,,22,24,,,3.6,2.1,2.2*3C",
    "$GPGSA,A,1,,,,*32",
    "$GPGSA,A,1,,,,*33",
    "$GNRMC,101500.25,A,5130.5,N,00006.0,W,4.5,270.0,290224,,,A*5F",
    "$GPGGA,123519,4807.038,N,01131.324,E,1,08,0.9,545.4,M,46.9,M, , *42",
    "$GPGGA,,,,,,0,,,,,*4A",
    "$GPGLL,5130.5,N,00006.0,W,101500.25,A,A*7D",
    "$GPGLL,,,,,,A,AB*3E",
    "$GPGLL,,,,,,A,,*11",
    "$GPVTG,360.0,T,348.7,M,000.0,N,000.0,K*43",
    "$GPVTG,054.7,T,034.4,M,005.5,N,010.2,K*48",
    "$GPVTG,t,T,,,s.ss,N,s.ss,K*77",
    "$GPVTG,,,,,,N1,*01",
    "$GPVTG,,,1e5,,,,*1F",
];

/// The further sentences in the comments of the crate's gsv.rs, gsa.rs, rmc.rs,
/// gga.rs and vtg.rs, as they stand there; gll.rs has none.
const COMMENTS: [&str; 12] = [
    "$GPGSV,3,2,11,14,25,170,00,16,57,208,39,18,67,296,40,19,40,246,00*74",
    "$GLGSV,3,3,09,88,07,028*51",
    "$IDGSV,2,1,08,01,40,083,46,02,17,308,41,12,07,344,39,14,22,228,45*75",
    "$GPGSA,A,3,19,28,14,18,27,22,31,39,,,,,1.7,1.0,1.3*35",
    "$GPGSA,A,3,23,31,22,16,03,07,,,,,,,1.8,1.1,1.4*3E",
    "$BDGSA,A,3,214,,,,,,,,,,,,1.8,1.1,1.4*18",
    "$GNGSA,A,3,31,26,21,,,,,,,,,,3.77,2.55,2.77*1A",
    "$GNGSA,A,3,75,86,87,,,,,,,,,,3.77,2.55,2.77*1C",
    "RMC,225446.33,A,4916.45,N,12311.12,W,000.5,054.7,191194,020.3,E,A*68",
    "GGA,123519,4807.038,N,01131.324,E,1,08,0.9,545.4,M,46.9,M, , *42",
    "$GPVTG,360.0,T,348.7,M,000.0,N,000.0,K*43",
    "$GPVTG,054.7,T,034.4,M,005.5,N,010.2,K",
];

/// The bodies of those whose checksum does not hold, or which have no frame.
const COMMENT_BODIES: [&str; 6] = [
    "GLGSV,3,3,09,88,07,028",
    "IDGSV,2,1,08,01,40,083,46,02,17,308,41,12,07,344,39,14,22,228,45",
    "GPGSA,A,3,19,28,14,18,27,22,31,39,,,,,1.7,1.0,1.3",
    "GPRMC,225446.33,A,4916.45,N,12311.12,W,000.5,054.7,191194,020.3,E,A",
    "GPGGA,123519,4807.038,N,01131.324,E,1,08,0.9,545.4,M,46.9,M, , ",
    "GPVTG,054.7,T,034.4,M,005.5,N,010.2,K",
];

/// Bodies of sentences that document 01 speaks of.
const BODIES: [&str; 67] = [
    "GLGSV,3,3,09,88,07,028,",
    "GPGSV,1,1,03,01,40,083,46,02,-5,308,41,12,07,344,39",
    "GPGSA,A,3,16,18,,22,24,3,2,1",
    "GPGSA,A,3,16,18,3,2.1,2.2",
    "GPGSA,A,3,16,18,3,2.1,2,1",
    "GPGSA,A,3,1,2,3,4,5,6,7,8,9,10,11,12,13,14,15,16,17,18,3.6,2.1,2.2",
    "GPGSA,A,3,1,2,3,4,5,6,7,8,9,10,11,12,13,14,15,16,17,18,19,3.6,2.1,2.2",
    "GPGSA,A,1,,,,2",
    "GBGSA,A,3,16,3.6,2.1,2.2,3",
    "GPRMC,+5+607,A,+12,N,+123,E,,,+1+2+3,,",
    "GPRMC,,V,,,,,,,,,E,A",
    "GPRMC,,A,,,,,,,,0,W",
    "GPRMC,,A,,,,,,,,,X,S",
    "GPRMC,,A,,,,,,,,",
    "GPTXT,i",
    // Signs on decimals.
    "GPRMC,,A,,,,,,,,-0,W",
    "GPRMC,,A,,,,,,,,-0,E",
    "GPRMC,,A,,,,,,,,-1.5,W",
    "GPRMC,,A,,,,,-0,-0.0,,,",
    "GPRMC,,A,,,,,-1234567,-1.5,,,",
    "GPRMC,,A,,,,,-12345678,,,,",
    "GPRMC,,A,00-30,N,000-30,W,,,,,",
    "GPRMC,,A,00-0,N,000-0,W,,,,,",
    "GPRMC,,A,51-30.5,S,016-999.999999999,E,,,,,",
    "GPRMC,0000-0,A,,,,,,,,,",
    "GPRMC,0000-99,A,,,,,,,,,",
    "GPRMC,0000-1e1,A,,,,,,,,,",
    "GPRMC,,A,,,,,+1,,,,",
    "GPRMC,,A,,,,,--1,,,,",
    "GPRMC,,A,,,,,-,,,,",
    "GPRMC,,A,,,,,-.5,,,,",
    "GPRMC,,A,,,,,1-1,,,,",
    "GPGSA,A,1,-1,0,0",
    "GPGSA,A,1,-1,0,0,2",
    "GPGSA,A,3,16,18,-3,-0,-2.2",
    "GPGSA,A,3,16,-12345678,1,1",
    // GGA: whole, with nothing but its fix, without units, without its last comma.
    "GPGGA,101500.25,5130.5,N,00006.0,W,2,07,1.25,-3.5,M,47.0,M,,",
    "GPGGA,,,,,,0,,,,,,",
    "GPGGA,,,,,,8,,,545.4,,46.9,",
    "GPGGA,,,,,,1,,,545.4,M,46.9",
    "GPGGA,,,,,,9,,,,,,",
    "GPGGA,,,,,,1,4294967295,,,,,",
    "GPGGA,,,,,,1,4294967296,,,,,",
    "GPGGA,,,,,,1,,-0,-1234567,M,-0.0,M",
    "GPGGA,,,,,,1,,+1,,,,",
    "GPGGA,,,,,,1,,,12345678,,,",
    "GPGGA,,,,,,1,,,,,-nan,",
    // GLL: with and without its mode, and the comma before it.
    "GPGLL,5130.5,N,00006.0,W,101500.25,A,D",
    "GPGLL,,,,,,V,",
    "GPGLL,,,,,,A",
    "GPGLL,,,,,,A,,",
    "GPGLL,,,,,,A,AB",
    "GPGLL,,,,,,A,B",
    "GPGLL,,,,,0000-0,A,",
    "GPGLL,00-30,N,000-30,W,,V,N",
    // VTG: km/h in the field of the N, and the usual one, which is not read.
    "GPVTG,,,,,,,",
    "GPVTG,,,,,,N1,",
    "GPVTG,,,,,,1,",
    "GPVTG,,,,,,N,1,K",
    "GPVTG,,,,,,K",
    "GPVTG,,,,,2.5,N-7.5,K",
    "GPVTG,-0,T,,M,,N-0.0,K",
    "GPVTG,270.0,T,272.5,M,4.5,N,8.3,K,A",
    "GPVTG,,,1e5,,,,",
    "GPVTG,,,,,1,N1e1,",
    "GPVTG,,,,,,NaN,",
    "GPVTG,,,,,,N9999999",
];

/// The lines of the crate's comments, as they are and with right checksums.
pub fn comment_lines() -> Vec<Vec<u8>> {
    let whole = COMMENTS.iter().map(|line| line.to_string());
    let bodies = COMMENT_BODIES.iter().map(|body| with_checksum(body));
    whole.chain(bodies).map(String::into_bytes).collect()
}

/// The worked lines of document 01 and those of the crate's comments.
pub fn worked_lines() -> Vec<Vec<u8>> {
    let mut lines: Vec<Vec<u8>> = WORKED.iter().map(|line| line.as_bytes().to_vec()).collect();
    lines.extend(comment_lines());
    lines.extend(BODIES.iter().map(|body| with_checksum(body).into_bytes()));
    lines.extend(
        KNOWN_TYPES
            .iter()
            .map(|name| with_checksum(&format!("GP{name},")).into_bytes()),
    );
    lines.extend([
        vec![],
        vec![b'x'; 102],
        vec![b'x'; 103],
        vec![0xC3, 0xA9],
        vec![0xC3, 0x28],
        vec![0xED, 0xA0, 0x80],
        [vec![b'x'; 299], vec![0xC3]].concat(),
        b"$GPTXT,i*0a".to_vec(),
        b"$GPTXT,i*+A".to_vec(),
        b"$GPTXT,i*-A".to_vec(),
    ]);
    lines
}
