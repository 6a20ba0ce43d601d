//! The worked sentences and the easy errors of document 01, and the sentences
//! in the comments of the crate's gsv.rs, gsa.rs, rmc.rs, gga.rs and vtg.rs. Each
//! expectation is written from the document's words; the crate must answer the
//! same.

use oracle::{
    crate_answer, crate_gga, crate_gll, crate_gsa, crate_gsv, crate_rmc, crate_vtg, expected,
    with_checksum, Answer, Coordinate, Date, Decimal, Entry, Exact, Gga, Gll, Gsa, Gsv, Refusal,
    Rmc, Speed, System, Time, Vtg,
};

/// The three GSV lines of one group, from the comment in gsv.rs.
const GSV_1: &str = "$GPGSV,3,1,11,03,03,111,00,04,15,270,00,06,01,010,00,13,06,292,00*74";
const GSV_2: &str = "$GPGSV,3,2,11,14,25,170,00,16,57,208,39,18,67,296,40,19,40,246,00*74";
const GSV_3: &str = "$GPGSV,3,3,11,22,42,067,42,24,14,311,43,27,05,244,00,,,,*4D";

const RMC: &str = "$GNRMC,101500.25,A,5130.5,N,00006.0,W,4.5,270.0,290224,,,A*5F";

fn answer(line: &str) -> Answer {
    crate_answer(line.as_bytes())
}

fn refused(line: &[u8]) -> Refusal {
    match crate_answer(line) {
        Answer::Refused(refusal) => refusal,
        accepted => panic!("{:?} is {accepted:?}", String::from_utf8_lossy(line)),
    }
}

fn rmc(line: &str) -> Rmc {
    match answer(line) {
        Answer::Rmc(record) => record,
        other => panic!("{line} is {other:?}"),
    }
}

fn gsa(line: &str) -> Gsa {
    match answer(line) {
        Answer::Gsa(record) => record,
        other => panic!("{line} is {other:?}"),
    }
}

fn gsv(line: &str) -> Gsv {
    match answer(line) {
        Answer::Gsv(record) => record,
        other => panic!("{line} is {other:?}"),
    }
}

/// The float of a short decimal: the whole number divided once by the power of ten.
fn short(whole: u32, power: u32) -> Option<u32> {
    Some((whole as f32 / power as f32).to_bits())
}

/// The float of a position: minutes as one division, divided by 60, added to
/// the degrees, negated for S or W. The signed count is of billionths of a
/// minute, degrees included.
fn position(count: i64, degrees: u8) -> Option<u64> {
    let minutes = (count.abs() - i64::from(degrees) * 60_000_000_000) as f64 / 1e9;
    let size = f64::from(degrees) + minutes / 60.;
    let value = if count < 0 { -size } else { size };
    Some(value.to_bits())
}

fn entry(satellite: u32, elevation: u16, azimuth: u16, signal: u16) -> Option<Entry> {
    let bits = |whole: u16| Some(f32::from(whole).to_bits());
    Some(Entry {
        satellite,
        elevation: bits(elevation),
        azimuth: bits(azimuth),
        signal: bits(signal),
    })
}

fn gga(line: &str) -> Gga {
    match answer(line) {
        Answer::Gga(record) => record,
        other => panic!("{line} is {other:?}"),
    }
}

fn gll(line: &str) -> Gll {
    match answer(line) {
        Answer::Gll(record) => record,
        other => panic!("{line} is {other:?}"),
    }
}

fn vtg(line: &str) -> Vtg {
    match answer(line) {
        Answer::Vtg(record) => record,
        other => panic!("{line} is {other:?}"),
    }
}

/// An RMC record with a status and nothing else.
fn bare_rmc(status: char) -> Rmc {
    Rmc {
        time: None,
        status,
        latitude: None,
        longitude: None,
        speed: None,
        course: None,
        date: None,
        variation: None,
        mode: None,
        navigation: None,
    }
}

// Worked sentences

#[test]
fn gsv_with_four_entries() {
    let expected = Gsv {
        system: System::Gps,
        sentences: 3,
        number: 1,
        in_view: 11,
        entries: [
            entry(3, 3, 111, 0),
            entry(4, 15, 270, 0),
            entry(6, 1, 10, 0),
            entry(13, 6, 292, 0),
        ],
    };
    assert_eq!(answer(GSV_1), Answer::Gsv(expected));
}

#[test]
fn gsv_second_line_of_the_comment() {
    let expected = Gsv {
        system: System::Gps,
        sentences: 3,
        number: 2,
        in_view: 11,
        entries: [
            entry(14, 25, 170, 0),
            entry(16, 57, 208, 39),
            entry(18, 67, 296, 40),
            entry(19, 40, 246, 0),
        ],
    };
    assert_eq!(answer(GSV_2), Answer::Gsv(expected));
}

#[test]
fn gsv_with_three_entries_and_the_fourth_absent() {
    let expected = Gsv {
        system: System::Gps,
        sentences: 3,
        number: 3,
        in_view: 11,
        entries: [
            entry(22, 42, 67, 42),
            entry(24, 14, 311, 43),
            entry(27, 5, 244, 0),
            None,
        ],
    };
    assert_eq!(answer(GSV_3), Answer::Gsv(expected));
}

#[test]
fn gsa_with_four_satellites() {
    let expected = Gsa {
        mode: 'A',
        fix: 3,
        satellites: vec![16, 18, 22, 24],
        pdop: short(36, 10),
        hdop: short(21, 10),
        vdop: short(22, 10),
        system: Some(System::Gps),
    };
    let line = "$GPGSA,A,3,,,,,,16,18,,22,24,,,3.6,2.1,2.2*3C";
    assert_eq!(answer(line), Answer::Gsa(expected));
}

#[test]
fn gsa_without_satellites() {
    let expected = Gsa {
        mode: 'A',
        fix: 1,
        satellites: vec![],
        pdop: None,
        hdop: None,
        vdop: None,
        system: Some(System::Gps),
    };
    assert_eq!(answer("$GPGSA,A,1,,,,*32"), Answer::Gsa(expected));
}

#[test]
fn gsa_with_a_wrong_checksum() {
    let expected = Refusal::Checksum {
        calculated: 50,
        found: 51,
    };
    assert_eq!(refused(b"$GPGSA,A,1,,,,*33"), expected);
}

#[test]
fn rmc_worked() {
    let expected = Rmc {
        time: Some(Time {
            hour: 10,
            minute: 15,
            second: 0,
            nanosecond: 250_000_000,
        }),
        latitude: position(3_090_500_000_000, 51),
        longitude: position(-6_000_000_000, 0),
        speed: short(45, 10),
        course: short(2700, 10),
        date: Some(Date {
            year: 2024,
            month: 2,
            day: 29,
        }),
        mode: Some('A'),
        ..bare_rmc('A')
    };
    assert_eq!(answer(RMC), Answer::Rmc(expected));
}

#[test]
fn empty_input_and_the_longest_length() {
    assert_eq!(refused(b""), Refusal::Syntax);
    assert_eq!(refused(&[b'x'; 102]), Refusal::Syntax);
    assert_eq!(refused(&[b'x'; 103]), Refusal::TooLong(103));
}

#[test]
fn bytes_that_are_not_ascii_or_not_utf8() {
    assert_eq!(refused(&[0xC3, 0xA9]), Refusal::NotAscii);
    assert_eq!(refused(&[0xC3, 0x28]), Refusal::BadUtf8);
    assert_eq!(refused(&[0xED, 0xA0, 0x80]), Refusal::BadUtf8);
}

#[test]
fn gsa_tail_of_whole_numbers() {
    // The items eat `3,` and `2,`, so that two of the three decimals are missing.
    let line = with_checksum("GPGSA,A,3,16,18,,22,24,3,2,1");
    assert_eq!(refused(line.as_bytes()), Refusal::Syntax);
}

#[test]
fn bad_utf8_at_the_end_of_300_bytes() {
    let mut line = [b'x'; 300];
    line[299] = 0xC3;
    assert_eq!(refused(&line), Refusal::BadUtf8);
}

#[test]
fn lines_of_the_log() {
    // The counts of the log program, over the crate's answers. The crate knows
    // no blank lines, so these are told apart first.
    let log = [GSV_1, GSV_2, GSV_3, "", "$GPGSA,A,1,,,,*33"];
    let (blank, filled): (Vec<&str>, Vec<&str>) = log.iter().partition(|line| line.is_empty());
    let numbers: Vec<u8> = filled.iter().map(|line| answer(line).number()).collect();
    assert_eq!(log.len(), 5);
    assert_eq!(blank.len(), 1);
    assert_eq!(numbers, [0, 0, 0, 6]);

    // One group: numbered 1 to 3, with equal system, n and in-view count.
    let heads: Vec<_> = filled[..3]
        .iter()
        .map(|line| gsv(line))
        .map(|record| {
            (
                record.system,
                record.sentences,
                record.number,
                record.in_view,
            )
        })
        .collect();
    let head = |number| (System::Gps, 3, number, 11);
    assert_eq!(heads, [head(1), head(2), head(3)]);
}

// Easy errors

#[test]
fn elevation_with_a_sign() {
    let line = with_checksum("GPGSV,1,1,03,01,40,083,46,02,-5,308,41,12,07,344,39");
    let expected = [entry(1, 40, 83, 46), None, None, None];
    assert_eq!(gsv(&line).entries, expected);
}

#[test]
fn entry_without_its_last_comma() {
    let line = with_checksum("GLGSV,3,3,09,88,07,028");
    let expected = Gsv {
        system: System::Glonass,
        sentences: 3,
        number: 3,
        in_view: 9,
        entries: [None; 4],
    };
    assert_eq!(answer(&line), Answer::Gsv(expected));

    // With its last comma the signal alone is missing.
    let line = with_checksum("GLGSV,3,3,09,88,07,028,");
    let expected = Entry {
        signal: None,
        ..entry(88, 7, 28, 0).unwrap()
    };
    assert_eq!(gsv(&line).entries, [Some(expected), None, None, None]);
}

#[test]
fn length_is_tested_after_utf8_and_ascii() {
    let long = |end: &[u8]| [&[b'x'; 103], end].concat();
    assert_eq!(refused(&long(&[0xC3])), Refusal::BadUtf8);
    assert_eq!(refused(&long(&[0xC3, 0xA9])), Refusal::NotAscii);
    assert_eq!(refused(&long(b"")), Refusal::TooLong(103));
}

#[test]
fn whole_number_pdop_is_an_item() {
    let line = with_checksum("GPGSA,A,3,16,18,3,2.1,2.2");
    assert_eq!(refused(line.as_bytes()), Refusal::Syntax);

    let line = with_checksum("GPGSA,A,3,16,18,3,2.1,2,1");
    let expected = Gsa {
        mode: 'A',
        fix: 3,
        satellites: vec![16, 18, 3],
        pdop: short(21, 10),
        hdop: short(2, 1),
        vdop: short(1, 1),
        system: Some(System::Gps),
    };
    assert_eq!(answer(&line), Answer::Gsa(expected));
}

#[test]
fn items_after_the_eighteenth_are_dropped() {
    let items = |last: u32| (1..=last).map(|n| format!("{n},")).collect::<String>();
    for last in [18, 19, 20] {
        let line = with_checksum(&format!("GPGSA,A,3,{}3.6,2.1,2.2", items(last)));
        assert_eq!(gsa(&line).satellites, (1..=18).collect::<Vec<u32>>());
    }
    // An empty item is one of the eighteen, though it is not kept.
    let line = with_checksum(&format!("GPGSA,A,3,,{}3.6,2.1,2.2", items(18)));
    assert_eq!(gsa(&line).satellites, (1..=17).collect::<Vec<u32>>());
}

// Sentences in the comments

#[test]
fn comment_checksums_that_do_not_hold() {
    let wrong = |calculated, found| Refusal::Checksum { calculated, found };
    assert_eq!(
        refused(b"$GLGSV,3,3,09,88,07,028*51"),
        wrong(0x7D, 0x51),
        "gsv.rs"
    );
    assert_eq!(
        refused(b"$IDGSV,2,1,08,01,40,083,46,02,17,308,41,12,07,344,39,14,22,228,45*75"),
        wrong(0x6F, 0x75),
        "gsv.rs"
    );
    assert_eq!(
        refused(b"$GPGSA,A,3,19,28,14,18,27,22,31,39,,,,,1.7,1.0,1.3*35"),
        wrong(0x34, 0x35),
        "gsa.rs"
    );
}

#[test]
fn comment_gsv_of_an_unknown_talker() {
    // ID names no system, and the talker decides before the body.
    let body = "IDGSV,2,1,08,01,40,083,46,02,17,308,41,12,07,344,39,14,22,228,45";
    let line = with_checksum(body);
    assert_eq!(refused(line.as_bytes()), Refusal::UnknownTalker(*b"ID"));

    // The same body from a known talker.
    let expected = Gsv {
        system: System::Gps,
        sentences: 2,
        number: 1,
        in_view: 8,
        entries: [
            entry(1, 40, 83, 46),
            entry(2, 17, 308, 41),
            entry(12, 7, 344, 39),
            entry(14, 22, 228, 45),
        ],
    };
    let line = with_checksum(&body.replace("ID", "GP"));
    assert_eq!(answer(&line), Answer::Gsv(expected));
}

#[test]
fn comment_gsa_of_eight_satellites() {
    let line = with_checksum("GPGSA,A,3,19,28,14,18,27,22,31,39,,,,,1.7,1.0,1.3");
    let expected = Gsa {
        mode: 'A',
        fix: 3,
        satellites: vec![19, 28, 14, 18, 27, 22, 31, 39],
        pdop: short(17, 10),
        hdop: short(10, 10),
        vdop: short(13, 10),
        system: Some(System::Gps),
    };
    assert_eq!(answer(&line), Answer::Gsa(expected));
}

#[test]
fn comment_gsa_of_two_talkers_in_one_cycle() {
    let expected = Gsa {
        mode: 'A',
        fix: 3,
        satellites: vec![23, 31, 22, 16, 3, 7],
        pdop: short(18, 10),
        hdop: short(11, 10),
        vdop: short(14, 10),
        system: Some(System::Gps),
    };
    let line = "$GPGSA,A,3,23,31,22,16,03,07,,,,,,,1.8,1.1,1.4*3E";
    assert_eq!(answer(line), Answer::Gsa(expected.clone()));

    let expected = Gsa {
        satellites: vec![214],
        system: Some(System::Beidou),
        ..expected
    };
    let line = "$BDGSA,A,3,214,,,,,,,,,,,,1.8,1.1,1.4*18";
    assert_eq!(answer(line), Answer::Gsa(expected));
}

#[test]
fn comment_gsa_of_a_talker_that_names_no_system() {
    let expected = Gsa {
        mode: 'A',
        fix: 3,
        satellites: vec![31, 26, 21],
        pdop: short(377, 100),
        hdop: short(255, 100),
        vdop: short(277, 100),
        system: None,
    };
    let line = "$GNGSA,A,3,31,26,21,,,,,,,,,,3.77,2.55,2.77*1A";
    assert_eq!(answer(line), Answer::Gsa(expected.clone()));

    let expected = Gsa {
        satellites: vec![75, 86, 87],
        ..expected
    };
    let line = "$GNGSA,A,3,75,86,87,,,,,,,,,,3.77,2.55,2.77*1C";
    assert_eq!(answer(line), Answer::Gsa(expected));
}

#[test]
fn comment_rmc() {
    // The comment leaves out `$` and the talker.
    let body = "RMC,225446.33,A,4916.45,N,12311.12,W,000.5,054.7,191194,020.3,E,A";
    assert_eq!(refused(format!("{body}*68").as_bytes()), Refusal::Syntax);
    let wrong = Refusal::Checksum {
        calculated: 0x2B,
        found: 0x68,
    };
    assert_eq!(refused(format!("$GP{body}*68").as_bytes()), wrong);

    let expected = Rmc {
        time: Some(Time {
            hour: 22,
            minute: 54,
            second: 46,
            nanosecond: 330_000_000,
        }),
        latitude: position((49 * 60_000 + 16_450) * 1_000_000, 49),
        longitude: position((123 * 60_000 + 11_120) * -1_000_000, 123),
        speed: short(5, 10),
        course: short(547, 10),
        date: Some(Date {
            year: 1994,
            month: 11,
            day: 19,
        }),
        variation: short(203, 10),
        mode: Some('A'),
        ..bare_rmc('A')
    };
    let line = with_checksum(&format!("GP{body}"));
    assert_eq!(answer(&line), Answer::Rmc(expected));
}

// Cases that the rules give in passing

#[test]
fn checksum_bytes() {
    // `+A` reads as 10, `-` is no digit, and a digit is read in either case.
    assert_eq!(with_checksum("GPTXT,A"), "$GPTXT,A*22");
    assert_eq!(with_checksum("GPTXT,i"), "$GPTXT,i*0A");
    assert_eq!(answer("$GPTXT,i*0A"), Answer::Other(*b"TXT"));
    assert_eq!(answer("$GPTXT,i*0a"), Answer::Other(*b"TXT"));
    assert_eq!(answer("$GPTXT,i*+A"), Answer::Other(*b"TXT"));
    assert_eq!(refused(b"$GPTXT,i*-A"), Refusal::Syntax);
    let wrong = Refusal::Checksum {
        calculated: 0x22,
        found: 10,
    };
    assert_eq!(refused(b"$GPTXT,A*+A"), wrong);
}

#[test]
fn text_after_the_checksum_counts_only_in_the_length() {
    let line = with_checksum("GPTXT,i");
    let longest = format!("{line:x<102}");
    assert_eq!(answer(&longest), Answer::Other(*b"TXT"));
    let longer = format!("{line:x<103}");
    assert_eq!(refused(longer.as_bytes()), Refusal::TooLong(103));
}

#[test]
fn two_byte_number_with_a_plus() {
    let line = with_checksum("GPRMC,+5+607,A,+12,N,+123,E,,,+1+2+3,,");
    let expected = Rmc {
        time: Some(Time {
            hour: 5,
            minute: 6,
            second: 7,
            nanosecond: 0,
        }),
        latitude: position(62_000_000_000, 1),
        longitude: position(723_000_000_000, 12),
        date: Some(Date {
            year: 2003,
            month: 2,
            day: 1,
        }),
        ..bare_rmc('A')
    };
    assert_eq!(answer(&line), Answer::Rmc(expected));
}

#[test]
fn lone_variation_letter() {
    // The comma at once means no variation; no comma follows, so `E,A` is the rest.
    let line = with_checksum("GPRMC,,V,,,,,,,,,E,A");
    assert_eq!(answer(&line), Answer::Rmc(bare_rmc('V')));
}

#[test]
fn zero_variation_to_the_west_is_minus_zero() {
    let east = with_checksum("GPRMC,,A,,,,,,,,0,E");
    let west = with_checksum("GPRMC,,A,,,,,,,,0,W");
    assert_eq!(rmc(&east).variation, Some(0));
    assert_eq!(rmc(&west).variation, Some(0x8000_0000));
}

#[test]
fn unknown_mode_letter_is_not_eaten() {
    let letters = |tail: &str| {
        let record = rmc(&with_checksum(&format!("GPRMC,,A,,,,,,,,,{tail}")));
        (record.mode, record.navigation)
    };
    assert_eq!(letters(",D,S"), (Some('D'), Some('S')));
    assert_eq!(letters(",,S"), (None, Some('S')));
    assert_eq!(letters(",X,S"), (None, None));
    assert_eq!(letters(",D,X"), (Some('D'), None));
}

#[test]
fn types_that_are_not_read_are_other() {
    let others = "AAM ALM APA BOD BWC BWW DBK DBS DPT GBS GNS GST HDT MDA MTW MWV RMZ TTM TXT \
                  VHW WNC ZDA ZFO ZTG";
    let mut count = 0;
    for name in others.split_whitespace() {
        let line = with_checksum(&format!("GP{name},"));
        let expected = Answer::Other(name.as_bytes().try_into().unwrap());
        assert_eq!(answer(&line), expected);
        count += 1;
    }
    assert_eq!(count, 24);
}

#[test]
fn parsing_errors_where_we_answer_more() {
    // Three letters in no list: we answer UnknownType (5).
    let line = with_checksum("GPXYZ,");
    assert_eq!(refused(line.as_bytes()), Refusal::Syntax);
    // A text that no reader of floats takes: we answer Number (9).
    let line = with_checksum("GPRMC,,A,,,,,fast,,,,");
    assert_eq!(refused(line.as_bytes()), Refusal::Syntax);
}

#[test]
fn talker_and_tail_of_two_systems() {
    let mismatch = |talker, tail| Refusal::SystemMismatch { talker, tail };
    let line = with_checksum("GPGSA,A,1,,,,2");
    assert_eq!(
        refused(line.as_bytes()),
        mismatch(System::Gps, System::Glonass)
    );
    let line = with_checksum("GBGSA,A,3,16,3.6,2.1,2.2,3");
    assert_eq!(
        refused(line.as_bytes()),
        mismatch(System::Beidou, System::Galileo)
    );
}

// Signs on decimals

/// What the text of an accepted line says, also beyond what the crate answers.
fn exact(line: &str) -> Exact {
    let ours = expected(line.as_bytes());
    assert_eq!(ours.answer.number(), 0, "{line}");
    ours.exact
}

/// A short decimal, by its whole number, its count of decimals and its float.
fn decimal(whole: i32, decimals: u32, float: f32) -> Option<Decimal> {
    Some(Decimal {
        minus: whole < 0,
        digits: whole.unsigned_abs(),
        decimals,
        bits: float.to_bits(),
    })
}

/// The float of a short decimal, as the crate has it.
fn bits(decimal: Option<Decimal>) -> Option<u32> {
    decimal.map(|decimal| decimal.bits)
}

#[test]
fn speed_course_and_variation_with_a_sign() {
    let texts = [
        ("-1", decimal(-1, 0, -1.), decimal(1, 0, 1.)),
        ("-1.50", decimal(-150, 2, -1.5), decimal(150, 2, 1.5)),
        ("-0", decimal(0, 0, -0.), decimal(0, 0, 0.)),
        ("-0.00", decimal(0, 2, -0.), decimal(0, 2, 0.)),
        (
            "-1234567",
            decimal(-1_234_567, 0, -1_234_567.),
            decimal(1_234_567, 0, 1_234_567.),
        ),
    ];
    for (text, signed, turned) in texts {
        for (letter, variation) in [('E', signed), ('W', turned)] {
            let line = with_checksum(&format!("GPRMC,,A,,,,,{text},{text},,{text},{letter}"));
            assert_eq!(exact(&line).decimals, [signed, signed, variation], "{line}");
            let record = rmc(&line);
            assert_eq!(record.speed, bits(signed), "{line}");
            assert_eq!(record.course, bits(signed), "{line}");
            assert_eq!(record.variation, bits(variation), "{line}");
        }
    }
    assert_eq!(rmc("$GPRMC,,A,,,,,,,,-0,W*6C").variation, Some(0));
}

#[test]
fn minutes_with_a_sign_count_against_the_degrees() {
    // Degrees and minutes as N and E have them; S and W negate what came out.
    let angles: [(u8, &str, i64, f64); 7] = [
        (0, "-30", -30_000_000_000, -0.5),
        (0, "-0", 0, 0.),
        (0, "-0.000000001", -1, -(1e-9 / 60.)),
        (1, "-60", 0, 0.),
        (1, "-0.000000001", 59_999_999_999, 1. - 1e-9 / 60.),
        (51, "-30.5", 3_029_500_000_000, 51. - 30.5 / 60.),
        (
            16,
            "-999.999999999",
            -39_999_999_999,
            16. - 999.999999999 / 60.,
        ),
    ];
    let coordinate = |count: i64, letter, degrees: f64| Coordinate {
        minus: count < 0,
        count: count.unsigned_abs(),
        letter,
        bits: degrees.to_bits(),
    };
    for (degrees, minutes, count, value) in angles {
        for ([north, east], count, value) in
            [(['N', 'E'], count, value), (['S', 'W'], -count, -value)]
        {
            let line = with_checksum(&format!(
                "GPRMC,,A,{degrees:02}{minutes},{north},{degrees:03}{minutes},{east},,,,,"
            ));
            let both = [north, east].map(|letter| coordinate(count, letter, value));
            assert_eq!(exact(&line).position, Some(both), "{line}");
            let record = rmc(&line);
            assert_eq!(record.latitude, Some(value.to_bits()), "{line}");
            assert_eq!(record.longitude, Some(value.to_bits()), "{line}");
        }
    }
}

#[test]
fn seconds_with_a_sign() {
    let ours = |time: &str| {
        let line = with_checksum(&format!("GPRMC,{time},A,,,,,,,,,"));
        assert_eq!(refused(line.as_bytes()), Refusal::Syntax, "{line}");
        expected(line.as_bytes()).answer
    };
    for time in ["0000-0", "0000-0.0", "0000-1", "0000-99", "2460-1"] {
        assert_eq!(ours(time), Answer::Refused(Refusal::Syntax), "{time}");
    }
    // Number comes before the sign, and before the ranges.
    for time in ["0000-1e1", "2460-1e1", "0000-1000", "0000--1"] {
        assert_eq!(ours(time), Answer::Refused(Refusal::Number), "{time}");
    }
}

#[test]
fn pdop_with_a_sign_is_no_item() {
    let expected = Gsa {
        mode: 'A',
        fix: 1,
        satellites: vec![],
        pdop: Some((-1f32).to_bits()),
        hdop: short(0, 1),
        vdop: short(0, 1),
        system: Some(System::Gps),
    };
    let line = "$GPGSA,A,1,-1,0,0*02";
    assert_eq!(answer(line), Answer::Gsa(expected));
    let zero = decimal(0, 0, 0.);
    assert_eq!(exact(line).decimals, [decimal(-1, 0, -1.), zero, zero]);

    let mismatch = Refusal::SystemMismatch {
        talker: System::Gps,
        tail: System::Glonass,
    };
    assert_eq!(refused(b"$GPGSA,A,1,-1,0,0,2*1C"), mismatch);

    // Satellites may stand before it.
    let line = with_checksum("GPGSA,A,3,16,18,-3,-0,-2.20");
    let record = gsa(&line);
    assert_eq!(record.satellites, [16, 18]);
    let dops = [
        decimal(-3, 0, -3.),
        decimal(0, 0, -0.),
        decimal(-220, 2, -2.2),
    ];
    assert_eq!(exact(&line).decimals, dops);
    assert_eq!([record.pdop, record.hdop, record.vdop], dops.map(bits));
}

/// The places of decimals, short ones first.
const PLACES: [&str; 23] = [
    "GPRMC,,A,,,,,?,,,,",
    "GPRMC,,A,,,,,,?,,,",
    "GPRMC,,A,,,,,,,,?,W",
    "GPGSA,A,3,16,?,2.1,2.2",
    "GPGSA,A,3,16,3.6,?,2.2",
    "GPGSA,A,3,16,3.6,2.1,?",
    "GPGGA,,,,,,1,,?,,,,",
    "GPGGA,,,,,,1,,,?,,,",
    "GPGGA,,,,,,1,,,,,?,",
    "GPVTG,?,,,,,,",
    "GPVTG,,,?,,,,",
    "GPVTG,,,,,?,,",
    "GPVTG,,,,,,N?,",
    "GPVTG,,,,,,?,",
    "GPRMC,0000?,A,,,,,,,,,",
    "GPGGA,0000?,,,,,1,,,,,,",
    "GPGLL,,,,,0000?,A,",
    "GPRMC,,A,00?,N,0000,E,,,,,",
    "GPGGA,,00?,N,0000,E,1,,,,,,",
    "GPGLL,00?,N,0000,E,,A,",
    "GPRMC,,A,000,N,000?,E,,,,,",
    "GPGGA,,000,N,000?,E,1,,,,,,",
    "GPGLL,000,N,000?,E,,A,",
];

#[test]
fn what_is_no_sign_of_a_decimal() {
    let is_number = |place: &str, text| {
        let line = with_checksum(&place.replace('?', text));
        expected(line.as_bytes()).answer == Answer::Refused(Refusal::Number)
    };
    for place in PLACES {
        for text in [
            "+1", "--1", "+-1", "-+1", "-", "-.5", "-5.", "1-1", "1-", "-1e1",
        ] {
            assert!(is_number(place, text), "{text} in {place}");
        }
    }
    // The sign is no digit.
    let (short, long) = PLACES.split_at(14);
    for place in short {
        assert!(!is_number(place, "-1234567") && !is_number(place, "-1.234567"));
        assert!(is_number(place, "-12345678") && is_number(place, "-1.2345678"));
    }
    for place in long {
        assert!(!is_number(place, "-999.999999999"), "{place}");
        assert!(is_number(place, "-1000") && is_number(place, "-1.0000000000"));
    }
}

// GGA, GLL and VTG

/// The example of gga.rs, which leaves out `$` and the talker.
const GGA: &str = "$GPGGA,123519,4807.038,N,01131.324,E,1,08,0.9,545.4,M,46.9,M, , *42";
/// Those of vtg.rs, of which the second has no checksum there.
const VTG: &str = "$GPVTG,360.0,T,348.7,M,000.0,N,000.0,K*43";
const VTG_2: &str = "$GPVTG,054.7,T,034.4,M,005.5,N,010.2,K*48";
/// The place and the time of the worked RMC.
const GLL: &str = "$GNGLL,5130.5,N,00006.0,W,101500.25,A,D*66";

/// A GGA record with a fix and nothing else.
fn bare_gga(fix: char) -> Gga {
    Gga {
        time: None,
        latitude: None,
        longitude: None,
        fix,
        satellites: None,
        hdop: None,
        altitude: None,
        geoid: None,
    }
}

/// A GLL record with a status and nothing else.
fn bare_gll(status: char) -> Gll {
    Gll {
        latitude: None,
        longitude: None,
        time: None,
        status,
        mode: None,
    }
}

/// A GGA sentence with a fix and these fields behind it.
fn gga_line(behind_fix: &str) -> String {
    with_checksum(&format!("GPGGA,,,,,,1,{behind_fix}"))
}

#[test]
fn comment_gga() {
    assert_eq!(refused(&GGA.as_bytes()[3..]), Refusal::Syntax);
    let expected = Gga {
        time: Some(Time {
            hour: 12,
            minute: 35,
            second: 19,
            nanosecond: 0,
        }),
        latitude: position((48 * 60_000 + 7_038) * 1_000_000, 48),
        longitude: position((11 * 60_000 + 31_324) * 1_000_000, 11),
        satellites: Some(8),
        hdop: short(9, 10),
        altitude: short(5454, 10),
        geoid: short(469, 10),
        ..bare_gga('1')
    };
    assert_eq!(answer(GGA), Answer::Gga(expected));
    let decimals = [
        decimal(9, 1, 0.9),
        decimal(5454, 1, 545.4),
        decimal(469, 1, 46.9),
    ];
    assert_eq!(exact(GGA).decimals, decimals);
}

#[test]
fn comment_vtg() {
    let expected = Vtg {
        course: short(3600, 10),
        speed: short(0, 10),
    };
    assert_eq!(answer(VTG), Answer::Vtg(expected));

    let without = VTG_2.trim_end_matches("*48");
    assert_eq!(refused(without.as_bytes()), Refusal::Syntax);
    let expected = Vtg {
        course: short(547, 10),
        speed: short(55, 10),
    };
    assert_eq!(answer(VTG_2), Answer::Vtg(expected));
    let exact = exact(VTG_2);
    assert_eq!(exact.decimals, [decimal(547, 1, 54.7), None, None]);
    let knots = decimal(55, 1, 5.5).unwrap();
    assert_eq!(exact.speed, speed('N', knots, 5.5));
}

#[test]
fn every_fix() {
    for fix in 0..128u8 {
        let line = format!("GPGGA,,,,,,{},,,,,,", char::from(fix));
        let line = with_checksum(&line);
        match fix {
            b'0'..=b'8' => assert_eq!(gga(&line), bare_gga(fix.into()), "{line}"),
            _ => assert_eq!(refused(line.as_bytes()), Refusal::Syntax, "{line}"),
        }
    }
}

#[test]
fn gga_satellites() {
    for (text, count) in [("", None), ("0", Some(0)), ("4294967295", Some(u32::MAX))] {
        let line = gga_line(&format!("{text},,,,,"));
        assert_eq!(gga(&line).satellites, count, "{line}");
    }
    for text in ["4294967296", "18446744073709551617", "+1", "-1", "1.0", "x"] {
        let line = gga_line(&format!("{text},,,,,"));
        assert_eq!(refused(line.as_bytes()), Refusal::Syntax, "{line}");
        assert_eq!(owed_number(&line), 4, "{line}");
    }
}

/// The number that document 01 answers to a line.
fn owed_number(line: &str) -> u8 {
    expected(line.as_bytes()).answer.number()
}

#[test]
fn gga_units_and_commas() {
    let heights = Gga {
        altitude: short(5454, 10),
        geoid: Some((-46.9f32).to_bits()),
        ..bare_gga('1')
    };
    for behind in [
        ",,545.4,M,-46.9,M",
        ",,545.4,,-46.9,M",
        ",,545.4,M,-46.9,",
        ",,545.4,,-46.9,,,",
        ",,545.4,M,-46.9,F,x",
    ] {
        assert_eq!(gga(&gga_line(behind)), heights, "{behind}");
    }
    for behind in [
        ",,545.4,F,46.9,M",
        ",,545.4,MM,46.9,M",
        ",,545.4,m,46.9,M",
        ",,545.4,M46.9,M",
        // Each comma in its turn is missing.
        "",
        ",",
        ",,",
        ",,545.4",
        ",,545.4,",
        ",,545.4,M",
        ",,545.4,M,",
        ",,545.4,M,46.9",
    ] {
        let line = gga_line(behind);
        assert_eq!(refused(line.as_bytes()), Refusal::Syntax, "{behind}");
        assert_eq!(owed_number(&line), 4, "{behind}");
    }
}

#[test]
fn gga_checks_run_from_the_left() {
    for (behind, number) in [
        // A wrong decimal, and then something that is Syntax.
        (",1x", 9),
        (",1x,545.4,F", 9),
        (",,1x,F,46.9,", 9),
        (",,,M,1x", 9),
        // Something that is Syntax, and then a wrong decimal.
        ("x,1x,,,,", 4),
        (",,,F,1x,", 4),
        (",0.9", 4),
        (",0.9,545.4,M,46.9", 4),
    ] {
        assert_eq!(owed_number(&gga_line(behind)), number, "{behind}");
    }
    let line = with_checksum("GPGGA,0000-0,,,,,1,,1x,,,,");
    assert_eq!(owed_number(&line), 4);
    let line = with_checksum("GPGGA,,,,,,9,,1x,,,,");
    assert_eq!(owed_number(&line), 4);
}

#[test]
fn gll_worked() {
    let expected = Gll {
        latitude: position(3_090_500_000_000, 51),
        longitude: position(-6_000_000_000, 0),
        time: rmc(RMC).time,
        mode: Some('D'),
        ..bare_gll('A')
    };
    assert_eq!(answer(GLL), Answer::Gll(expected));
    assert_eq!(exact(GLL).position, exact(RMC).position);
}

#[test]
fn every_status_and_mode_of_gll() {
    for byte in 0..128u8 {
        let letter = char::from(byte);
        let status = with_checksum(&format!("GPGLL,,,,,,{letter},"));
        match letter {
            'A' | 'V' => assert_eq!(gll(&status), bare_gll(letter), "{status}"),
            _ => assert_eq!(refused(status.as_bytes()), Refusal::Syntax, "{status}"),
        }
        let mode = with_checksum(&format!("GPGLL,,,,,,V,{letter}"));
        let read = Gll {
            mode: Some(letter),
            ..bare_gll('V')
        };
        match letter {
            _ if "ACDEFMNPRSU".contains(letter) => assert_eq!(gll(&mode), read, "{mode}"),
            _ => assert_eq!(refused(mode.as_bytes()), Refusal::Syntax, "{mode}"),
        }
    }
}

#[test]
fn gll_behind_its_status() {
    let behind = |text: &str| with_checksum(&format!("GPGLL,,,,,,A{text}"));
    assert_eq!(gll(&behind(",")), bare_gll('A'));
    for text in [",A", ",AB", ",A,", ",A,x"] {
        assert_eq!(gll(&behind(text)).mode, Some('A'), "{text}");
    }
    for text in ["", "A", ",,", ",,A", ",B", ", A", ",a"] {
        let line = behind(text);
        assert_eq!(refused(line.as_bytes()), Refusal::Syntax, "{text}");
        assert_eq!(owed_number(&line), 4, "{text}");
    }
}

/// A speed as it was written, and its float in knots.
fn speed(unit: char, written: Decimal, knots: f32) -> Option<Speed> {
    Some(Speed {
        unit,
        written,
        knots: knots.to_bits(),
    })
}

/// A VTG sentence with this from the knots on.
fn vtg_line(speeds: &str) -> String {
    with_checksum(&format!("GPVTG,,,,,{speeds}"))
}

#[test]
fn speed_of_vtg() {
    let one = decimal(1, 0, 1.).unwrap();
    let minus_zero = decimal(0, 1, -0.).unwrap();
    let kilometre = 0.539_956_8;
    for (speeds, expected) in [
        (",,", None),
        (",N,", None),
        // As receivers write it.
        (",N,1,K", None),
        ("1,N,1.9,K", speed('N', one, 1.)),
        // km/h behind the letter, and in its place.
        (",N1,", speed('K', one, kilometre)),
        (",1,", speed('K', one, kilometre)),
        (",N1,K", speed('K', one, kilometre)),
        // Knots where there are both.
        ("1,N7,", speed('N', one, 1.)),
        ("-0.0,N7,", speed('N', minus_zero, -0.)),
        (",N-0.0,", speed('K', minus_zero, -0.)),
    ] {
        let line = vtg_line(speeds);
        assert_eq!(exact(&line).speed, expected, "{speeds}");
        let knots = expected.map(|speed| speed.knots);
        assert_eq!(vtg(&line).speed, knots, "{speeds}");
    }
    assert_eq!(vtg_line(",N1,"), "$GPVTG,,,,,,N1,*01");
}

#[test]
fn kilometres_are_divided_once_in_an_f32() {
    for (text, whole, power) in [
        ("1.852", 1852u32, 1000u32),
        ("3.7", 37, 10),
        ("9999999", 9_999_999, 1),
        ("0.000001", 1, 1_000_000),
        ("1234.567", 1_234_567, 1000),
    ] {
        let written = whole as f32 / power as f32;
        let line = vtg_line(&format!(",N{text},"));
        assert_eq!(
            vtg(&line).speed,
            Some((written / 1.852).to_bits()),
            "{text}"
        );
        let negative = vtg_line(&format!(",N-{text},"));
        let knots = Some((-written / 1.852).to_bits());
        assert_eq!(vtg(&negative).speed, knots, "{text}");
    }
}

#[test]
fn what_is_no_speed_of_vtg() {
    // Number wherever the text is reached and is no plain decimal.
    for speeds in [
        "1x,N,", ",K", ",K,", ",n,", ",NK,", ",NN,", ",N ,", ",N1e1,", "1,N1e1,", "1,N1e1", ",1N,",
        ",NaN,",
    ] {
        assert_eq!(owed_number(&vtg_line(speeds)), 9, "{speeds}");
    }
    // Syntax where a comma is missing behind a good one.
    for speeds in ["", "1", "1,", "1,N", ",N1", ",1"] {
        let line = vtg_line(speeds);
        assert_eq!(refused(line.as_bytes()), Refusal::Syntax, "{speeds}");
        assert_eq!(owed_number(&line), 4, "{speeds}");
    }
}

#[test]
fn courses_of_vtg() {
    let course = |body: &str| vtg(&with_checksum(&format!("GPVTG,{body}"))).course;
    assert_eq!(course("90,T,,,,,"), short(90, 1));
    assert_eq!(course("-90.0,,,,,,"), Some((-90f32).to_bits()));
    // The magnetic course is read, and not kept.
    assert_eq!(course(",,90,M,,,"), None);
    for (body, number) in [
        (",,1e5,,,,", 9),
        ("1e5,,,,,,", 9),
        ("1x,E", 9),
        (",,1x", 9),
        ("90,E,,,,,", 4),
        ("90,TT,,,,,", 4),
        ("90,E,1x,,,,", 4),
        (",T,90,T,,,", 4),
        ("90", 4),
        ("90,T", 4),
        ("90,T,90", 4),
        ("90,T,90,M", 4),
    ] {
        let line = with_checksum(&format!("GPVTG,{body}"));
        assert_eq!(owed_number(&line), number, "{body}");
    }
    assert_eq!(with_checksum("GPVTG,,,1e5,,,,"), "$GPVTG,,,1e5,,,,*1F");
}

// Readers of one type

#[test]
fn readers_of_one_type_accept_their_own() {
    assert_eq!(crate_gga(GGA.as_bytes()), Ok(gga(GGA)));
    assert_eq!(crate_gll(GLL.as_bytes()), Ok(gll(GLL)));
    assert_eq!(crate_vtg(VTG.as_bytes()), Ok(vtg(VTG)));
    let gsa_line = "$GPGSA,A,3,,,,,,16,18,,22,24,,,3.6,2.1,2.2*3C";
    assert_eq!(crate_rmc(RMC.as_bytes()), Ok(rmc(RMC)));
    assert_eq!(crate_gsa(gsa_line.as_bytes()), Ok(gsa(gsa_line)));
    assert_eq!(crate_gsv(GSV_1.as_bytes()), Ok(gsv(GSV_1)));
}

#[test]
fn readers_of_one_type_refuse_other_known_types() {
    let wrong = |expected: &[u8; 3], found: &[u8; 3]| Refusal::WrongHeader {
        expected: *expected,
        found: *found,
    };
    let dbs = with_checksum("GPDBS,");
    assert_eq!(crate_rmc(GSV_1.as_bytes()), Err(wrong(b"RMC", b"GSV")));
    assert_eq!(crate_gsa(RMC.as_bytes()), Err(wrong(b"GSA", b"RMC")));
    assert_eq!(crate_gsv(dbs.as_bytes()), Err(wrong(b"GSV", b"DBS")));
    assert_eq!(crate_gga(GLL.as_bytes()), Err(wrong(b"GGA", b"GLL")));
    assert_eq!(crate_gll(VTG.as_bytes()), Err(wrong(b"GLL", b"VTG")));
    assert_eq!(crate_vtg(GGA.as_bytes()), Err(wrong(b"VTG", b"GGA")));
    // The talker XX names no system, but the type comes first.
    let line = with_checksum("XXRMC,");
    assert_eq!(crate_gsv(line.as_bytes()), Err(wrong(b"GSV", b"RMC")));
}

#[test]
fn readers_of_one_type_frame_before_they_look_at_the_type() {
    let found = Refusal::Checksum {
        calculated: 50,
        found: 51,
    };
    assert_eq!(crate_rmc(b"$GPGSA,A,1,,,,*33"), Err(found));
    assert_eq!(crate_gsv(b"$GPGSA,A,1,,,,*"), Err(Refusal::Syntax));
    assert_eq!(crate_gsa(&[b'x'; 103]), Err(Refusal::TooLong(103)));
    assert_eq!(crate_rmc(&[0xC3, 0xA9]), Err(Refusal::NotAscii));
    assert_eq!(crate_gsv(&[0xC3, 0x28]), Err(Refusal::BadUtf8));
}

#[test]
fn refusal_numbers() {
    let table = [
        (1, Refusal::BadUtf8),
        (2, Refusal::NotAscii),
        (3, Refusal::TooLong(103)),
        (4, Refusal::Syntax),
        (5, Refusal::UnknownType),
        (
            6,
            Refusal::Checksum {
                calculated: 50,
                found: 51,
            },
        ),
        (7, Refusal::UnknownTalker(*b"ID")),
        (
            8,
            Refusal::SystemMismatch {
                talker: System::Gps,
                tail: System::Glonass,
            },
        ),
        (9, Refusal::Number),
        (
            10,
            Refusal::WrongHeader {
                expected: *b"RMC",
                found: *b"GSV",
            },
        ),
        (11, Refusal::BadTime),
    ];
    for (number, refusal) in table {
        assert_eq!(refusal.number(), number);
        assert_eq!(Answer::Refused(refusal).number(), number);
    }
    assert_eq!(Answer::Other(*b"DBS").number(), 0);
}
