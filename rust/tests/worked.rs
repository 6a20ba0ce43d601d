//! The worked sentences and the easy errors of 01, with every field of each
//! record. What is expected is written from 01's words.

mod common;

use std::collections::HashSet;

use common::{
    gga, gll, gsa, gsv, letters, rmc, vtg, with_checksum, GGA, GLL, GSV_1, GSV_2, GSV_3, VTG,
};
use proved_nmea::{
    read, Coordinate, DataStatus, Date, Decimal, Dops, Entry, Fix, FixType, Gga, Gll, Gsa, Gsv,
    Hemisphere, Letters, Mode, NavigationalStatus, Position, Refusal, Rmc, Selection, Sentence,
    Speed, SpeedUnit, Status, System, Time, Vtg,
};

const RMC: &str = "$GNRMC,101500.25,A,5130.5,N,00006.0,W,4.5,270.0,290224,,,A*5F";

/// A short decimal: the float is the whole number divided once by the power of ten.
fn short(whole: i32, decimals: u8) -> Decimal {
    let power = 10_i32.pow(decimals.into());
    Decimal {
        whole,
        decimals,
        value: whole as f32 / power as f32,
    }
}

/// Minus zero, of which the float alone tells the sign.
fn minus_zero(decimals: u8) -> Decimal {
    Decimal {
        whole: 0,
        decimals,
        value: -0.0,
    }
}

fn dops(pdop: Decimal, hdop: Decimal, vdop: Decimal) -> Option<Dops> {
    Some(Dops { pdop, hdop, vdop })
}

/// A coordinate from its count: minutes as one division, then divided by 60,
/// added to the degrees, negated for S or W. What of the count is not degrees
/// is minutes, which may be below zero.
fn coordinate(billionths: i64, degrees: u8, hemisphere: Hemisphere) -> Coordinate {
    let turn = match hemisphere {
        Hemisphere::North | Hemisphere::East => 1,
        Hemisphere::South | Hemisphere::West => -1,
    };
    let minutes = (turn * billionths - i64::from(degrees) * 60_000_000_000) as f64 / 1e9;
    Coordinate {
        billionths,
        hemisphere,
        degrees: turn as f64 * (f64::from(degrees) + minutes / 60.),
    }
}

/// The speed of a sentence that has this text for it.
fn speed(text: &str) -> Decimal {
    let record = rmc(&with_checksum(&format!("GPRMC,,A,,,,,{text},,,,")));
    record.speed.expect("a speed")
}

/// The latitude of a sentence that has these degrees and minutes, and this letter.
fn latitude(text: &str, letter: char) -> Coordinate {
    let record = rmc(&with_checksum(&format!(
        "GPRMC,,A,{text},{letter},0000,E,,,,,"
    )));
    record.position.expect("a position").latitude
}

fn entry(satellite: u32, elevation: u32, azimuth: u32, signal: u32) -> Option<Entry> {
    Some(Entry {
        satellite,
        elevation: Some(elevation),
        azimuth: Some(azimuth),
        signal: Some(signal),
    })
}

// Records may gain fields, and so are made by reading one and setting every field that there is.

/// An RMC record with a talker, a status and nothing else.
fn bare_rmc(talker: &[u8; 2], status: Status) -> Rmc {
    let mut record = rmc(RMC);
    record.talker = letters(talker);
    record.time = None;
    record.status = status;
    record.position = None;
    record.speed = None;
    record.course = None;
    record.date = None;
    record.variation = None;
    record.mode = None;
    record.navigational_status = None;
    record
}

/// A GGA record with a talker, a fix and nothing else.
fn bare_gga(talker: &[u8; 2], fix: FixType) -> Gga {
    let mut record = gga(GGA);
    record.talker = letters(talker);
    record.time = None;
    record.position = None;
    record.fix = fix;
    record.satellites = None;
    record.hdop = None;
    record.altitude = None;
    record.geoid_separation = None;
    record
}

/// A GLL record with a talker, a status and nothing else.
fn bare_gll(talker: &[u8; 2], status: DataStatus) -> Gll {
    let mut record = gll(GLL);
    record.talker = letters(talker);
    record.position = None;
    record.time = None;
    record.status = status;
    record.mode = None;
    record
}

fn vtg_of(talker: &[u8; 2], course: Option<Decimal>, speed: Option<Speed>) -> Vtg {
    let mut record = vtg(VTG);
    record.talker = letters(talker);
    record.course = course;
    record.speed = speed;
    record
}

/// A speed that is written in knots: its float is the decimal's.
fn knots(written: Decimal) -> Option<Speed> {
    Some(Speed {
        written,
        unit: SpeedUnit::Knots,
        knots: written.value,
    })
}

/// A speed that is written in km/h: its float is the decimal's, divided once.
fn kilometres(written: Decimal) -> Option<Speed> {
    Some(Speed {
        written,
        unit: SpeedUnit::KilometresPerHour,
        knots: written.value / 1.852,
    })
}

fn gsa_of(
    (selection, fix): (Selection, Fix),
    system: Option<System>,
    dops: Option<Dops>,
    satellites: &[u32],
) -> Gsa {
    let mut record = gsa("$GPGSA,A,1,,,,*32");
    record.talker = letters(b"GP");
    record.selection = selection;
    record.fix = fix;
    record.system = system;
    record.dops = dops;
    record.satellites = satellites.to_vec();
    record
}

fn gsv_of(
    (talker, system): (&[u8; 2], System),
    [sentences, number, in_view]: [u16; 3],
    entries: [Option<Entry>; 4],
) -> Gsv {
    let mut record = gsv(GSV_1);
    record.talker = letters(talker);
    record.system = system;
    record.sentences = sentences;
    record.number = number;
    record.in_view = in_view;
    record.entries = entries;
    record
}

// Worked sentences

#[test]
fn gsv_of_three_lines() {
    let expected = |number, entries| gsv_of((b"GP", System::Gps), [3, number, 11], entries);
    let first = [
        entry(3, 3, 111, 0),
        entry(4, 15, 270, 0),
        entry(6, 1, 10, 0),
        entry(13, 6, 292, 0),
    ];
    let second = [
        entry(14, 25, 170, 0),
        entry(16, 57, 208, 39),
        entry(18, 67, 296, 40),
        entry(19, 40, 246, 0),
    ];
    let third = [
        entry(22, 42, 67, 42),
        entry(24, 14, 311, 43),
        entry(27, 5, 244, 0),
        None,
    ];
    assert_eq!(gsv(GSV_1), expected(1, first));
    assert_eq!(gsv(GSV_2), expected(2, second));
    assert_eq!(gsv(GSV_3), expected(3, third));
    assert_eq!(gsv(GSV_3).satellites().count(), 3);
}

#[test]
fn gsa_with_four_satellites() {
    let expected = gsa_of(
        (Selection::Automatic, Fix::ThreeDimensions),
        Some(System::Gps),
        dops(short(36, 1), short(21, 1), short(22, 1)),
        &[16, 18, 22, 24],
    );
    assert_eq!(
        gsa("$GPGSA,A,3,,,,,,16,18,,22,24,,,3.6,2.1,2.2*3C"),
        expected
    );
}

#[test]
fn gsa_without_satellites() {
    let expected = gsa_of(
        (Selection::Automatic, Fix::None),
        Some(System::Gps),
        None,
        &[],
    );
    assert_eq!(gsa("$GPGSA,A,1,,,,*32"), expected);
}

#[test]
fn rmc_worked() {
    let mut expected = bare_rmc(b"GN", Status::Autonomous);
    expected.time = Some(Time {
        hour: 10,
        minute: 15,
        second: 0,
        nanosecond: 250_000_000,
    });
    expected.position = Some(Position {
        latitude: coordinate(3_090_500_000_000, 51, Hemisphere::North),
        longitude: coordinate(-6_000_000_000, 0, Hemisphere::West),
    });
    expected.speed = Some(short(45, 1));
    expected.course = Some(short(2700, 1));
    expected.date = Some(Date {
        year: 2024,
        month: 2,
        day: 29,
    });
    expected.mode = Some(Mode::Autonomous);
    assert_eq!(rmc(RMC), expected);
}

#[test]
fn gga_worked() {
    let mut expected = bare_gga(b"GP", FixType::Gps);
    expected.time = Some(Time {
        hour: 12,
        minute: 35,
        second: 19,
        nanosecond: 0,
    });
    expected.position = Some(Position {
        latitude: coordinate(2_887_038_000_000, 48, Hemisphere::North),
        longitude: coordinate(691_324_000_000, 11, Hemisphere::East),
    });
    expected.satellites = Some(8);
    expected.hdop = Some(short(9, 1));
    expected.altitude = Some(short(5454, 1));
    expected.geoid_separation = Some(short(469, 1));
    assert_eq!(gga(GGA), expected);
    let line = "$GPGGA,123519,4807.038,N,01131.324,E,1,08,0.9,545.4,M,46.9,M,,*42";
    assert_eq!(gga(line), expected);
}

#[test]
fn gll_worked() {
    let mut expected = bare_gll(b"GP", DataStatus::Valid);
    expected.position = Some(Position {
        latitude: coordinate(3_090_500_000_000, 51, Hemisphere::North),
        longitude: coordinate(-6_000_000_000, 0, Hemisphere::West),
    });
    expected.time = Some(Time {
        hour: 10,
        minute: 15,
        second: 0,
        nanosecond: 250_000_000,
    });
    expected.mode = Some(Mode::Autonomous);
    assert_eq!(gll(GLL), expected);
}

/// Both speeds are there, and the knots are kept.
#[test]
fn vtg_worked() {
    let expected = vtg_of(b"GP", Some(short(3600, 1)), knots(short(0, 1)));
    assert_eq!(vtg(VTG), expected);
    let line = with_checksum("GPVTG,054.7,T,034.4,M,005.5,N,010.2,K");
    let expected = vtg_of(b"GP", Some(short(547, 1)), knots(short(55, 1)));
    assert_eq!(vtg(&line), expected);
}

#[test]
fn records_as_text() {
    let record = rmc(RMC);
    assert_eq!(record.time.unwrap().to_string(), "10:15:00.250000000");
    assert_eq!(record.date.unwrap().to_string(), "2024-02-29");
    assert_eq!(record.speed.unwrap().to_string(), "4.5");
    assert_eq!(record.course.unwrap().to_string(), "270.0");
    assert_eq!(record.mode.unwrap().letter(), 'A');
    let position = record.position.unwrap();
    assert_eq!(position.latitude.hemisphere.letter(), 'N');
    assert_eq!(position.longitude.hemisphere.letter(), 'W');
    assert_eq!(position.latitude.to_string(), "51 30.500000000 N");
    assert_eq!(position.longitude.to_string(), "0 06.000000000 W");
    assert_eq!(gsv(GSV_1).talker.to_string(), "GP");
    assert_eq!(
        System::ALL.map(|system| system.to_string()).join(" "),
        "GPS GLONASS Galileo BeiDou QZSS NavIC"
    );
    let numbers = System::ALL.map(System::number);
    assert_eq!(numbers, [1, 2, 3, 4, 5, 6]);
}

/// Names, and not the bytes that they have.
#[test]
fn records_for_debugging() {
    let text = |body: &str| format!("{:?}", read(with_checksum(body).as_bytes()));
    assert_eq!(
        text("GPGNS,"),
        "Ok(Other(Other { talker: GP, type_name: GNS }))"
    );
    assert_eq!(text("IDGSV,"), "Err(UnknownTalker(ID))");
    assert_eq!(text(" \tGSV,"), "Err(UnknownTalker(\" \\t\"))");
    let list = text("GPGSV,1,1,00,");
    assert!(list.contains("talker: GP, system: Gps"), "{list}");
    assert_eq!(
        text("GPGGA,,,,,,4,,,,,,"),
        "Ok(Gga(Gga { talker: GP, time: None, position: None, fix: Rtk, satellites: None, \
         hdop: None, altitude: None, geoid_separation: None }))"
    );
    assert_eq!(
        text("GNGLL,,,,,,V,N"),
        "Ok(Gll(Gll { talker: GN, position: None, time: None, status: NotValid, \
         mode: Some(NotValid) }))"
    );
    assert_eq!(
        text("GPVTG,,,,,,1.852,"),
        "Ok(Vtg(Vtg { talker: GP, course: None, speed: Some(Speed { \
         written: Decimal { whole: 1852, decimals: 3, value: 1.852 }, \
         unit: KilometresPerHour, knots: 1.0 }) }))"
    );
}

#[test]
fn names_as_text() {
    let talker = gsv(GSV_1).talker;
    assert_eq!((talker.as_str(), talker.bytes()), ("GP", *b"GP"));
    assert!(talker == "GP" && talker != "GL" && talker == *"GP");
    assert_eq!(letters(b"\0\x7F").as_str(), "\0\x7F");
    assert_eq!(Letters::new([b'G', 128]), None);
    let lines = [
        RMC,
        "$GPGSA,A,1,,,,*32",
        GSV_1,
        "$GPTXT,i*0A",
        GGA,
        GLL,
        VTG,
    ];
    let names = lines.map(|line| {
        let sentence = read(line.as_bytes()).expect("accepted");
        format!("{} {}", sentence.talker(), sentence.type_name())
    });
    let expected = [
        "GN RMC", "GP GSA", "GP GSV", "GP TXT", "GP GGA", "GP GLL", "GP VTG",
    ];
    assert_eq!(names, expected);
}

/// The whole number and the power of ten are exact, so that one division rounds once.
#[test]
fn decimals_as_floats() {
    for size in [
        "0", "0.0", "0.1", "4.5", "0.000001", "9999999", "999999.9", "1.234567", "00.30",
    ] {
        for text in [size.into(), format!("-{size}")] {
            let nearest: f64 = text.parse().expect("a float");
            let speed = speed(&text);
            assert_eq!(speed.to_f64().to_bits(), nearest.to_bits(), "{text}");
            assert_eq!(f64::from(speed).to_bits(), nearest.to_bits());
            assert_eq!(f32::from(speed).to_bits(), (nearest as f32).to_bits());
        }
    }
    let line = with_checksum("GPRMC,,A,,,,,,,,0.0,W");
    let variation = rmc(&line).variation.expect("a variation");
    assert_eq!(variation.to_f64().to_bits(), (-0.0_f64).to_bits());
    let line = with_checksum("GPRMC,,A,,,,,,,,1.5,W");
    assert_eq!(rmc(&line).variation.expect("a variation").to_f64(), -1.5);
}

/// What `date -u -d '..' +%s` prints.
#[test]
fn timestamps() {
    let since = |time: &str, date: &str| {
        let line = with_checksum(&format!("GPRMC,{time},A,,,,,,,{date},,"));
        rmc(&line)
            .timestamp()
            .map(|since| (since.as_secs(), since.subsec_nanos()))
    };
    assert_eq!(
        since("101500.25", "290224"),
        Some((1_709_201_700, 250_000_000))
    );
    assert_eq!(since("000000", "010183"), Some((410_227_200, 0)));
    assert_eq!(
        since("235959.999999999", "311282"),
        Some((3_565_987_199, 999_999_999))
    );
    assert_eq!(since("000000", "010300"), Some((951_868_800, 0)));
    assert_eq!(since("", "010100"), None);
    assert_eq!(since("000000", ""), None);
    let day = |year, month, day| Date { year, month, day }.days_since_1970();
    assert_eq!(day(1970, 1, 1), 0);
    assert_eq!(day(1969, 12, 31), -1);
    // Each day is the one after the last.
    let leap = |year: u16| year % 4 == 0 && (year % 100 != 0 || year % 400 == 0);
    let mut next = day(1983, 1, 1);
    for year in 1983..=2082 {
        for (month, days) in (1..).zip([31, 28, 31, 30, 31, 30, 31, 31, 30, 31, 30, 31]) {
            for date in 1..=days + u8::from(month == 2 && leap(year)) {
                assert_eq!(day(year, month, date), next, "{year}-{month}-{date}");
                next += 1;
            }
        }
    }
}

// Easy errors

#[test]
fn elevation_with_a_sign() {
    let line = with_checksum("GPGSV,1,1,03,01,40,083,46,02,-5,308,41,12,07,344,39");
    assert_eq!(gsv(&line).entries, [entry(1, 40, 83, 46), None, None, None]);
}

#[test]
fn entry_without_its_last_comma() {
    let line = with_checksum("GLGSV,3,3,09,88,07,028");
    let expected = gsv_of((b"GL", System::Glonass), [3, 3, 9], [None; 4]);
    assert_eq!(gsv(&line), expected);

    // With its last comma the signal alone is missing.
    let line = with_checksum("GLGSV,3,3,09,88,07,028,");
    let expected = Entry {
        signal: None,
        ..entry(88, 7, 28, 0).unwrap()
    };
    assert_eq!(gsv(&line).entries, [Some(expected), None, None, None]);
}

#[test]
fn whole_number_pdop_is_an_item() {
    let line = with_checksum("GPGSA,A,3,16,18,3,2.1,2.2");
    assert_eq!(read(line.as_bytes()), Err(Refusal::Syntax));

    let line = with_checksum("GPGSA,M,2,16,18,3,2.1,2,1");
    let expected = gsa_of(
        (Selection::Manual, Fix::TwoDimensions),
        Some(System::Gps),
        dops(short(21, 1), short(2, 0), short(1, 0)),
        &[16, 18, 3],
    );
    assert_eq!(gsa(&line), expected);
}

#[test]
fn gsa_tail_of_whole_numbers() {
    // The items eat `3,` and `2,`, so that two of the three decimals are missing.
    let line = with_checksum("GPGSA,A,3,16,18,,22,24,3,2,1");
    assert_eq!(read(line.as_bytes()), Err(Refusal::Syntax));
}

#[test]
fn items_after_the_eighteenth_are_dropped() {
    let items = |last: u32| (1..=last).map(|n| format!("{n},")).collect::<String>();
    for last in [18, 19, 20] {
        let line = with_checksum(&format!("GPGSA,A,3,{}3.6,2.1,2.2", items(last)));
        assert_eq!(gsa(&line).satellites, (1..=18).collect::<Vec<u32>>());
    }
    // An empty item is one of the eighteen, though it is not kept.
    let line = with_checksum(&format!("GPGSA,A,3,,{}3.6,2.1,2.2", items(18)));
    assert_eq!(gsa(&line).satellites, (1..=17).collect::<Vec<u32>>());
}

// Cases that the rules give in passing

#[test]
fn gsa_systems() {
    let system = |body: &str| gsa(&with_checksum(body)).system;
    assert_eq!(system("GNGSA,A,1,,,,"), None);
    assert_eq!(system("GNGSA,A,1,,,,1"), Some(System::Gps));
    assert_eq!(system("GNGSA,A,1,,,,2"), Some(System::Glonass));
    assert_eq!(system("GNGSA,A,1,,,,3"), Some(System::Galileo));
    assert_eq!(system("GNGSA,A,1,,,,4"), Some(System::BeiDou));
    assert_eq!(system("GNGSA,A,1,,,,5"), None);
    assert_eq!(system("GAGSA,A,1,,,,5"), Some(System::Galileo));
    assert_eq!(system("BDGSA,A,1,,,,"), Some(System::BeiDou));
    assert_eq!(system("GBGSA,A,1,,,,4"), Some(System::BeiDou));
    assert_eq!(system("GQGSA,A,1,,,,"), None);
}

#[test]
fn gsv_systems() {
    let table = [
        ("GP", System::Gps),
        ("GL", System::Glonass),
        ("GA", System::Galileo),
        ("BD", System::BeiDou),
        ("GB", System::BeiDou),
        ("GI", System::NavIc),
        ("GQ", System::Qzss),
        ("PQ", System::Qzss),
        ("QZ", System::Qzss),
    ];
    for (talker, system) in table {
        let record = gsv(&with_checksum(&format!("{talker}GSV,1,1,00,")));
        assert_eq!(record.system, system);
        assert_eq!(record.talker.to_string(), talker);
    }
}

#[test]
fn largest_numbers() {
    let line = with_checksum("GPGSV,65535,65535,65535,4294967295,2147483647,2147483647,2147483647");
    let most = 2_147_483_647;
    let entries = [entry(4_294_967_295, most, most, most), None, None, None];
    let expected = gsv_of((b"GP", System::Gps), [65_535; 3], entries);
    assert_eq!(gsv(&line), expected);
    let line = with_checksum("GNGSA,A,3,4294967295,9999999.,1,1");
    assert_eq!(read(line.as_bytes()), Err(Refusal::Number));
    let line = with_checksum("GNGSA,A,3,4294967295,0.000001,9999999,999999.9");
    let record = gsa(&line);
    assert_eq!(record.satellites, [4_294_967_295]);
    assert_eq!(
        record.dops,
        dops(short(1, 6), short(9_999_999, 0), short(9_999_999, 1))
    );
    assert_eq!(record.dops.unwrap().pdop.to_string(), "0.000001");

    let line = with_checksum("GNRMC,235959.999999999,D,99999.999999999,S,255999.999999999,W,,,,,");
    let mut expected = bare_rmc(b"GN", Status::Differential);
    expected.time = Some(Time {
        hour: 23,
        minute: 59,
        second: 59,
        nanosecond: 999_999_999,
    });
    expected.position = Some(Position {
        latitude: coordinate(-6_939_999_999_999, 99, Hemisphere::South),
        longitude: coordinate(-16_299_999_999_999, 255, Hemisphere::West),
    });
    assert_eq!(rmc(&line), expected);
}

#[test]
fn two_byte_numbers_with_a_plus() {
    let line = with_checksum("GPRMC,+5+607,A,+12,N,+123,E,,,+1+2+3,,");
    let mut expected = bare_rmc(b"GP", Status::Autonomous);
    expected.time = Some(Time {
        hour: 5,
        minute: 6,
        second: 7,
        nanosecond: 0,
    });
    expected.position = Some(Position {
        latitude: coordinate(62_000_000_000, 1, Hemisphere::North),
        longitude: coordinate(723_000_000_000, 12, Hemisphere::East),
    });
    expected.date = Some(Date {
        year: 2003,
        month: 2,
        day: 1,
    });
    assert_eq!(rmc(&line), expected);
}

#[test]
fn variation() {
    let variation = |tail: &str| {
        let record = rmc(&with_checksum(&format!("GPRMC,,A,,,,,,,,{tail}")));
        let decimal = record.variation.expect("a variation");
        (decimal.to_string(), decimal.whole, decimal.value.to_bits())
    };
    assert_eq!(
        variation("020.3,E"),
        ("20.3".into(), 203, 20.3f32.to_bits())
    );
    assert_eq!(
        variation("020.3,W"),
        ("-20.3".into(), -203, (-20.3f32).to_bits())
    );
    // Zero to the west is minus zero.
    assert_eq!(variation("0,E"), ("0".into(), 0, 0));
    assert_eq!(variation("0,W"), ("-0".into(), 0, 0x8000_0000));
    // W turns a negative one back.
    assert_eq!(
        variation("-020.3,E"),
        ("-20.3".into(), -203, (-20.3f32).to_bits())
    );
    assert_eq!(
        variation("-020.3,W"),
        ("20.3".into(), 203, 20.3f32.to_bits())
    );
    assert_eq!(variation("-0,E"), ("-0".into(), 0, 0x8000_0000));
    assert_eq!(variation("-0,W"), ("0".into(), 0, 0));
    let mut expected = bare_rmc(b"GP", Status::Autonomous);
    expected.variation = Some(short(0, 0));
    assert_eq!(rmc("$GPRMC,,A,,,,,,,,-0,W*6C"), expected);
}

#[test]
fn lone_variation_letter() {
    // The comma at once means no variation; no comma follows, so `E,A` is the rest.
    let line = with_checksum("GPRMC,,V,,,,,,,,,E,A");
    assert_eq!(rmc(&line), bare_rmc(b"GP", Status::NotValid));
}

#[test]
fn zero_to_the_south_and_west_is_minus_zero() {
    let line = with_checksum("GPRMC,,A,000,S,0000,W,,,,,");
    let position = rmc(&line).position.unwrap();
    for coordinate in [position.latitude, position.longitude] {
        assert_eq!(coordinate.billionths, 0);
        assert_eq!(coordinate.degrees.to_bits(), (-0.0f64).to_bits());
    }
}

#[test]
fn letters_of_rmc() {
    let letters = |tail: &str| {
        let record = rmc(&with_checksum(&format!("GPRMC,,A,,,,,,,,,{tail}")));
        let mode = record.mode.map(Mode::letter);
        let status = record.navigational_status.map(NavigationalStatus::letter);
        (mode, status)
    };
    for letter in "ACDEFMNPRSU".chars() {
        assert_eq!(letters(&format!(",{letter}")), (Some(letter), None));
    }
    for letter in "ADEMNSV".chars() {
        assert_eq!(letters(&format!(",,{letter}")), (None, Some(letter)));
    }
    // An unknown letter is not eaten.
    assert_eq!(letters(",X,S"), (None, None));
    assert_eq!(letters(",D,X"), (Some('D'), None));
    for status in "ADV".chars() {
        let line = with_checksum(&format!("GPRMC,,{status},,,,,,,,,"));
        assert_eq!(rmc(&line).status.letter(), status);
    }
}

/// All but the fix may be absent; both letters `M` may, and what stands behind the geoid's comma is ignored.
#[test]
fn gga_without_its_parts() {
    let bare = bare_gga(b"GN", FixType::Invalid);
    for rest in [
        "0,,,,,,",
        "0,,,,M,,",
        "0,,,,,,M",
        "0,,,,M,,M,,",
        "0,,,,,,MM",
        "0,,,,,,x,1e5",
    ] {
        assert_eq!(gga(&with_checksum(&format!("GNGGA,,,,,,{rest}"))), bare);
    }
    let mut expected = bare_gga(b"GP", FixType::DGps);
    expected.satellites = Some(4_294_967_295);
    let line = with_checksum("GPGGA,,,,,,2,4294967295,,,,,");
    assert_eq!(gga(&line), expected);
    // Each decimal by itself.
    expected.satellites = Some(0);
    expected.hdop = Some(short(9_999_999, 0));
    assert_eq!(gga(&with_checksum("GPGGA,,,,,,2,00,9999999,,,,")), expected);
    expected.hdop = None;
    expected.altitude = Some(short(-1, 6));
    assert_eq!(
        gga(&with_checksum("GPGGA,,,,,,2,0,,-0.000001,,,")),
        expected
    );
    expected.altitude = None;
    expected.geoid_separation = Some(minus_zero(1));
    assert_eq!(gga(&with_checksum("GPGGA,,,,,,2,0,,,M,-0.0,M")), expected);
}

#[test]
fn letters_of_gga() {
    let fix = |letter: char| gga(&with_checksum(&format!("GPGGA,,,,,,{letter},,,,,,"))).fix;
    let table = [
        ('0', FixType::Invalid, false),
        ('1', FixType::Gps, true),
        ('2', FixType::DGps, true),
        ('3', FixType::Pps, true),
        ('4', FixType::Rtk, true),
        ('5', FixType::FloatRtk, true),
        ('6', FixType::Estimated, false),
        ('7', FixType::Manual, false),
        ('8', FixType::Simulation, false),
    ];
    for (letter, expected, is_valid) in table {
        assert_eq!(fix(letter), expected);
        assert_eq!(
            (fix(letter).letter(), fix(letter).is_valid()),
            (letter, is_valid)
        );
    }
}

/// A mode is one of RMC's letters, or the data end where it would stand; the rest is ignored.
#[test]
fn letters_of_gll() {
    let of = |status: char, tail: &str| gll(&with_checksum(&format!("GPGLL,,,,,,{status},{tail}")));
    assert_eq!(of('V', ""), bare_gll(b"GP", DataStatus::NotValid));
    assert_eq!(of('A', ""), bare_gll(b"GP", DataStatus::Valid));
    for letter in "ACDEFMNPRSU".chars() {
        for rest in ["", ",", "B", ",,x"] {
            let record = of('A', &format!("{letter}{rest}"));
            assert_eq!(record.mode.map(Mode::letter), Some(letter));
            assert_eq!(record.status.letter(), 'A');
        }
    }
    assert_eq!(of('V', "N").status.letter(), 'V');
}

/// Kilometres per hour are read in N's field alone: behind the N, or in its place.
#[test]
fn speeds_of_vtg() {
    let speed = |tail: &str| {
        let record = vtg(&with_checksum(&format!("GPVTG,,,,,{tail}")));
        assert_eq!(record, vtg_of(b"GP", None, record.speed));
        record.speed
    };
    assert_eq!(speed(",,"), None);
    assert_eq!(speed(",N,"), None);
    assert_eq!(speed(",N,1,K"), None);
    assert_eq!(speed(",N,1e5,K"), None);
    assert_eq!(speed("2.5,,"), knots(short(25, 1)));
    assert_eq!(speed("2.5,N,"), knots(short(25, 1)));
    assert_eq!(speed(",N1,"), kilometres(short(1, 0)));
    assert_eq!(speed(",1,"), kilometres(short(1, 0)));
    assert_eq!(speed(",1,K"), kilometres(short(1, 0)));
    assert_eq!(speed(",1,x"), kilometres(short(1, 0)));
    // Knots are kept where both are there.
    assert_eq!(speed("2.5,N10.2,K"), knots(short(25, 1)));
    assert_eq!(speed("2.5,10.2,K"), knots(short(25, 1)));
    assert_eq!(speed("-0,N10.2,K"), knots(minus_zero(0)));
    // The kilometres per hour with a sign, and of minus zero too.
    assert_eq!(speed(",-10.20,"), kilometres(short(-1020, 2)));
    let minus = speed(",N-0,").expect("a speed");
    assert_eq!(minus.written, minus_zero(0));
    assert_eq!(minus.knots.to_bits(), 0x8000_0000);
    assert_ne!(Some(minus), speed(",N0,"));
    assert_ne!(Some(minus), speed("-0,,"));
    assert_eq!(vtg("$GPVTG,,,,,,N1,*01").speed, kilometres(short(1, 0)));
}

/// Both divisions are rounded to 24 bits: the bits were worked out with whole numbers.
#[test]
fn kilometres_per_hour_in_knots() {
    for (text, bits) in [
        ("1", 0x3F0A_3A9C),
        ("10.2", 0x40B0_3DED),
        ("0.1", 0x3D5D_2A93),
        ("1.852", 0x3F80_0000),
        ("9999999", 0x4AA4_C81F),
        ("0", 0),
    ] {
        for (sign, sign_bit) in [("", 0), ("-", 0x8000_0000)] {
            let line = with_checksum(&format!("GPVTG,,,,,,N{sign}{text},"));
            let speed = vtg(&line).speed.expect("a speed");
            assert_eq!(speed.knots.to_bits(), bits | sign_bit, "{line}");
            let value: f32 = text.parse().expect("a float");
            assert_eq!(speed.written.value.to_bits(), value.to_bits() | sign_bit);
        }
    }
}

#[test]
fn speeds_as_text() {
    let speed = |tail: &str| {
        let record = vtg(&with_checksum(&format!("GPVTG,,,,,{tail}")));
        record.speed.expect("a speed")
    };
    assert_eq!(speed("005.50,N,").to_string(), "5.50 knots");
    assert_eq!(speed(",N-010.2,").to_string(), "-10.2 km/h");
    assert_eq!(speed("1,,").unit.letter(), 'N');
    assert_eq!(speed(",1,").unit.letter(), 'K');
    let speeds = ["0,,", "-0,,", ",0,", ",-0,", "0.0,,", "0,N1,"].map(speed);
    assert_eq!(HashSet::from(speeds).len(), 5);
}

/// The magnetic course is read, and not kept.
#[test]
fn courses_of_vtg() {
    let course = |text: &str| {
        let record = vtg(&with_checksum(&format!("GPVTG,{text},,,,")));
        assert_eq!(record.speed, None);
        record.course
    };
    assert_eq!(course(",,,"), None);
    assert_eq!(course(",T,348.7,M"), None);
    assert_eq!(course("270,T,,"), Some(short(270, 0)));
    assert_eq!(course("270.50,,1,"), Some(short(27_050, 2)));
    assert_eq!(course("-0,T,-0,M"), Some(minus_zero(0)));
}

/// Time and position are RMC's.
#[test]
fn times_and_positions_of_three_sentences() {
    for time in ["", "000000", "+5+607", "235959.999999999", "101500.25"] {
        for position in [
            ",,,",
            "5130.5,N,00006.0,W",
            "00-30,N,000-0,W",
            "000,S,0000,E",
            "99999.999999999,S,255999.999999999,W",
        ] {
            let from = rmc(&with_checksum(&format!("GPRMC,{time},A,{position},,,,,")));
            let line = with_checksum(&format!("GPGGA,{time},{position},1,,,,,,"));
            assert_eq!(
                (gga(&line).time, gga(&line).position),
                (from.time, from.position)
            );
            let line = with_checksum(&format!("GPGLL,{position},{time},A,"));
            assert_eq!(
                (gll(&line).time, gll(&line).position),
                (from.time, from.position)
            );
            assert_eq!(from.time.is_none(), time.is_empty());
            assert_eq!(from.position.is_none(), position == ",,,");
        }
    }
}

#[test]
fn types_that_are_not_read_are_other() {
    let others = "AAM ALM APA BOD BWC BWW DBK DBS DPT GBS GNS GST HDT MDA MTW MWV RMZ TTM TXT \
                  VHW WNC ZDA ZFO ZTG";
    assert_eq!(others.split_whitespace().count(), 24);
    for name in others.split_whitespace() {
        match read(with_checksum(&format!("GP{name},")).as_bytes()) {
            Ok(Sentence::Other(found)) => {
                assert_eq!(found.talker, letters(b"GP"));
                assert_eq!(found.type_name.as_str(), name);
            }
            other => panic!("{name} is {other:?}"),
        }
    }
}

#[test]
fn checksum_bytes() {
    // `+A` reads as 10, `-` is no digit, and a digit is read in either case.
    let text = read(b"$GPTXT,i*0A");
    assert_eq!(with_checksum("GPTXT,i"), "$GPTXT,i*0A");
    assert!(matches!(text, Ok(Sentence::Other(_))), "{text:?}");
    assert_eq!(read(b"$GPTXT,i*0a"), text);
    assert_eq!(read(b"$GPTXT,i*+A"), text);
    assert_eq!(read(b"$GPTXT,i*-A"), Err(Refusal::Syntax));
}

// Signs

/// The sign is no digit: seven may stand behind it.
#[test]
fn decimals_below_zero() {
    let table = [
        ("-1", short(-1, 0), "-1"),
        ("-4.50", short(-450, 2), "-4.50"),
        ("-0.5", short(-5, 1), "-0.5"),
        ("-0007", short(-7, 0), "-7"),
        ("-9999999", short(-9_999_999, 0), "-9999999"),
        ("-0.000001", short(-1, 6), "-0.000001"),
        ("-0", minus_zero(0), "-0"),
        ("-00.00", minus_zero(2), "-0.00"),
    ];
    for (text, expected, shown) in table {
        assert_eq!(speed(text), expected, "{text}");
        assert_eq!(speed(text).to_string(), shown);
    }
    let record = rmc(&with_checksum("GPRMC,,A,,,,,-0,-359.9,,-1.5,W"));
    assert_eq!(record.speed, Some(minus_zero(0)));
    assert_eq!(record.course, Some(short(-3599, 1)));
    assert_eq!(record.variation, Some(short(15, 1)));
}

/// By its bits: whole number and decimals of the two are the same.
#[test]
fn minus_zero_is_not_zero() {
    let (minus, plus) = (speed("-0"), speed("0"));
    assert_eq!((minus.whole, minus.decimals), (plus.whole, plus.decimals));
    assert_ne!(minus, plus);
    assert_eq!(minus, minus_zero(0));
    assert_ne!(minus, minus_zero(1));
    assert_eq!(HashSet::from([minus, plus, minus]).len(), 2);

    // So is every record that holds them.
    let answers = ["GPRMC,,A,,,,,-0,,,,", "GPRMC,,A,,,,,0,,,,"]
        .map(|body| read(with_checksum(body).as_bytes()));
    assert_ne!(answers[0], answers[1]);
    let [minus, plus] =
        ["-0", "0"].map(|text| gsa(&with_checksum(&format!("GPGSA,A,1,1.0,{text},1"))));
    assert_ne!(minus, plus);
    assert_ne!(minus.dops, plus.dops);

    let minus = latitude("000", 'S');
    let degrees = 0.0;
    let plus = Coordinate { degrees, ..minus };
    assert_ne!(minus, plus);
    assert_eq!(HashSet::from([minus, plus, minus]).len(), 2);
}

/// They count against the degrees, and so the count may have another sign than its letter says.
#[test]
fn minutes_below_zero() {
    const MINUTE: i64 = 1_000_000_000;
    let table = [
        ("00-30", 'N', -30 * MINUTE, -0.5, "-0 30.000000000 N"),
        ("00-30", 'S', 30 * MINUTE, 0.5, "-0 30.000000000 S"),
        ("01-30", 'N', 30 * MINUTE, 0.5, "0 30.000000000 N"),
        ("01-30", 'S', -30 * MINUTE, -0.5, "0 30.000000000 S"),
        ("01-90", 'N', -30 * MINUTE, -0.5, "-0 30.000000000 N"),
        ("10-765", 'S', 165 * MINUTE, 2.75, "-2 45.000000000 S"),
        ("01-60", 'N', 0, 0.0, "0 00.000000000 N"),
        ("01-60", 'S', 0, -0.0, "0 00.000000000 S"),
        ("00-0", 'N', 0, 0.0, "0 00.000000000 N"),
        ("00-0", 'S', 0, -0.0, "0 00.000000000 S"),
        ("00-0.000000001", 'N', -1, -1e-9 / 60., "-0 00.000000001 N"),
    ];
    for (text, letter, billionths, degrees, shown) in table {
        let hemisphere = match letter {
            'N' => Hemisphere::North,
            _ => Hemisphere::South,
        };
        let expected = Coordinate {
            billionths,
            hemisphere,
            degrees,
        };
        assert_eq!(latitude(text, letter), expected, "{text},{letter}");
        assert_eq!(latitude(text, letter).to_string(), shown);
    }

    // The longest: nine decimals, each operation rounded.
    let line = with_checksum("GNRMC,,A,99-999.999999999,S,255-999.999999999,W,,,,,");
    let expected = Position {
        latitude: coordinate(-4_940_000_000_001, 99, Hemisphere::South),
        longitude: coordinate(-14_300_000_000_001, 255, Hemisphere::West),
    };
    assert_eq!(rmc(&line).position, Some(expected));
    let line = with_checksum("GNRMC,,A,000,N,000-7.5,E,,,,,");
    let longitude = rmc(&line).position.unwrap().longitude;
    assert_eq!(longitude, coordinate(-7_500_000_000, 0, Hemisphere::East));
    assert_eq!(longitude.to_string(), "-0 07.500000000 E");
}

/// `-1,` is no item, since a whole number has no sign; so it is the PDOP.
#[test]
fn dops_below_zero() {
    let head = (Selection::Automatic, Fix::None);
    let expected = |dops| gsa_of(head, Some(System::Gps), dops, &[]);
    assert_eq!(
        gsa("$GPGSA,A,1,-1,0,0*02"),
        expected(dops(short(-1, 0), short(0, 0), short(0, 0)))
    );
    let mismatch = Refusal::SystemMismatch {
        talker: System::Gps,
        tail: System::Glonass,
    };
    assert_eq!(read(b"$GPGSA,A,1,-1,0,0,2*1C"), Err(mismatch));
    let line = with_checksum("GPGSA,A,1,16,,18,-0,-2.50,-0.0,1");
    let mut expected = expected(dops(minus_zero(0), short(-250, 2), minus_zero(1)));
    expected.satellites = vec![16, 18];
    assert_eq!(gsa(&line), expected);
}
