//! The exports as they are: what is written, and what is left.

mod common;

use common::{with_checksum, worked_log, GGA, GLL, GSV_1, GSV_2, GSV_3, VTG};
use proved_nmea::abi::{
    answer, fresh, gather, row, walk, DONE, GROUP, NO_GSV, NO_RUN, ROW, ROWS, ROW_WORDS, TABLE,
    TOTALS, UNDONE, WAITS, WORDS,
};

#[test]
fn words_after_the_answer_stay() {
    let mut words = [7; WORDS + 2];
    assert_eq!(answer(GSV_1.as_bytes(), &mut words), DONE);
    assert_eq!(words[0], 3);
    assert_eq!(words[WORDS - 1..], [0, 7, 7]);
}

#[test]
fn too_few_words_are_left_alone() {
    let mut words = [7; WORDS - 1];
    assert_eq!(answer(GSV_1.as_bytes(), &mut words), UNDONE);
    assert_eq!(words, [7; WORDS - 1]);
    assert_eq!(answer(b"", &mut []), UNDONE);
}

/// Every word of the three, by its number in docs/ABI.md.
#[test]
fn words_of_gga_gll_and_vtg() {
    let words = |line: &str| {
        let mut words = [7; WORDS];
        assert_eq!(answer(line.as_bytes(), &mut words), DONE);
        words
    };
    let expected = |kind: u64, talker: &[u8; 2], parts: &[&[u64]]| {
        let [first, second] = talker.map(u64::from);
        let mut words = [&[kind, first, second], &parts.concat()[..]].concat();
        assert!(words.len() <= WORDS);
        words.resize(WORDS, 0);
        words
    };
    let letter = |letter: u8| [u64::from(letter)];
    let single = |value: f32| u64::from(value.to_bits());
    let north = [0, 2_887_038_000_000, b'N'.into(), 48.1173f64.to_bits()];
    let east = [
        0,
        691_324_000_000,
        b'E'.into(),
        11.522066666666667f64.to_bits(),
    ];
    let gga = expected(
        6,
        b"GP",
        &[
            &[1, 12, 35, 19, 0],
            &[1],
            &north,
            &east,
            &letter(b'1'),
            &[1, 8],
            &[1, 0, 9, 1, single(0.9)],
            &[1, 0, 5454, 1, single(545.4)],
            &[1, 0, 469, 1, single(46.9)],
        ],
    );
    assert_eq!(words(GGA)[..], gga);
    let bare = expected(6, b"GN", &[&[0; 14], &letter(b'8')]);
    assert_eq!(words(&with_checksum("GNGGA,,,,,,8,,,,,,"))[..], bare);
    let signs = expected(
        6,
        b"GP",
        &[
            &[0; 14],
            &letter(b'0'),
            &[1, 0],
            &[1, 0, 0, 0, 0x8000_0000],
            &[1, 1, 45, 1, single(-4.5)],
            &[1, 0, 0, 1, 0x8000_0000],
        ],
    );
    let line = with_checksum("GPGGA,,,,,,0,0,-0,-4.5,,-0.0,");
    assert_eq!(words(&line)[..], signs);

    let north = [
        0,
        3_090_500_000_000,
        b'N'.into(),
        51.50833333333333f64.to_bits(),
    ];
    let west = [
        1,
        6_000_000_000,
        b'W'.into(),
        (-0.1f64).to_bits(),
    ];
    let gll = expected(
        7,
        b"GP",
        &[
            &[1],
            &north,
            &west,
            &[1, 10, 15, 0, 250_000_000],
            &letter(b'A'),
            &letter(b'A'),
        ],
    );
    assert_eq!(words(GLL)[..], gll);
    let bare = expected(7, b"GN", &[&[0; 14], &letter(b'V')]);
    assert_eq!(words(&with_checksum("GNGLL,,,,,,V,"))[..], bare);

    let speed = [1, b'N'.into(), 0, 0, 1, 0, 0];
    let vtg = expected(8, b"GP", &[&[1, 0, 3600, 1, single(360.0)], &speed]);
    assert_eq!(words(VTG)[..], vtg);
    let (value, knots) = (single(-10.2), 0xC0B0_3DED);
    let speed = [1, b'K'.into(), 1, 102, 1, value, knots];
    let vtg = expected(8, b"GN", &[&[0; 5], &speed]);
    assert_eq!(words(&with_checksum("GNVTG,,,,,,N-10.2,"))[..], vtg);
    let (zero, minus) = ([1, 0, 0, 0, 0x8000_0000], 0x8000_0000);
    let speed = [1, b'K'.into(), 0, 0, 2, minus, minus];
    let vtg = expected(8, b"GN", &[&zero, &speed]);
    assert_eq!(words(&with_checksum("GNVTG,-0,,,,,-0.00,"))[..], vtg);
    assert_eq!(
        words(&with_checksum("GNVTG,,,,,,,"))[..],
        expected(8, b"GN", &[])
    );
}

/// The sign word is that of the whole number, and 0 of minus zero, which the float's bits tell; a coordinate's is that of
/// its count, and not its letter's.
#[test]
fn words_of_signed_numbers() {
    let words = |body: &str| {
        let mut words = [7; WORDS];
        assert_eq!(answer(with_checksum(body).as_bytes(), &mut words), DONE);
        words
    };
    let single = |value: f32| u64::from(value.to_bits());
    let rmc = words("GPRMC,,A,00-30,N,00006.0,W,-0,-4.5,,-0,W");
    assert_eq!(rmc[9], 1);
    let half = (-0.5f64).to_bits();
    assert_eq!(rmc[10..14], [1, 30_000_000_000, b'N'.into(), half]);
    let tenth = (-0.1f64).to_bits();
    assert_eq!(rmc[14..18], [1, 6_000_000_000, b'W'.into(), tenth]);
    assert_eq!(rmc[18..23], [1, 0, 0, 0, 0x8000_0000]);
    assert_eq!(rmc[23..28], [1, 1, 45, 1, single(-4.5)]);
    assert_eq!(rmc[32..37], [1, 0, 0, 0, 0]);
    let rmc = words("GPRMC,,A,00-30,S,000-0,E,,,,,");
    let half = 0.5f64.to_bits();
    assert_eq!(rmc[10..14], [0, 30_000_000_000, b'S'.into(), half]);
    assert_eq!(rmc[14..18], [0, 0, b'E'.into(), 0]);
    let gsa = words("GPGSA,A,1,-1,-0.0,0");
    assert_eq!(gsa[6], 1);
    assert_eq!(gsa[7..11], [1, 1, 0, single(-1.0)]);
    assert_eq!(gsa[11..15], [0, 0, 1, 0x8000_0000]);
    assert_eq!(gsa[15..19], [0; 4]);
}

#[test]
fn totals() {
    let log = worked_log("\n");
    let mut totals = [7; TOTALS + 1];
    assert_eq!(walk(log.as_bytes(), &mut totals), DONE);
    assert_eq!(totals, [5, 1, 3, 1, 1, 7]);
    let mut short = [7; TOTALS - 1];
    assert_eq!(walk(log.as_bytes(), &mut short), UNDONE);
    assert_eq!(short, [7; TOTALS - 1]);
    let mut totals = [7; TOTALS];
    assert_eq!(walk(&[b'x'; 65_537], &mut totals), 12);
    assert_eq!(totals, [7; TOTALS]);
}

/// Lengths and answers are those that C has.
#[test]
fn the_header_has_the_same_constants() {
    let header = include_str!("../../include/nmea.h");
    for (name, number) in [
        ("WORDS", WORDS),
        ("TOTALS", TOTALS),
        ("TABLE", TABLE),
        ("ROWS", ROWS),
        ("ROW", ROW),
        ("ROW_WORDS", ROW_WORDS),
        ("DONE", DONE as usize),
        ("UNDONE", UNDONE as usize),
        ("NO_GSV", NO_GSV as usize),
        ("NO_RUN", NO_RUN as usize),
        ("WAITS", WAITS as usize),
        ("GROUP", GROUP as usize),
    ] {
        let define = format!("#define NMEA_{name} {number}");
        assert!(header.lines().any(|line| line == define), "{define}");
    }
}

#[test]
fn a_fresh_table() {
    let mut table = [7; TABLE];
    assert_eq!(fresh(&mut table), DONE);
    assert_eq!(table, [0; TABLE]);
    for length in [0, TABLE - 1, TABLE + 1] {
        let mut other = vec![7; length];
        assert_eq!(fresh(&mut other), UNDONE);
        assert_eq!(other, vec![7; length]);
    }
}

/// The words that a line's own row gets, and those that are left.
#[test]
fn lines_of_a_group() {
    let mut table = [7; TABLE];
    fresh(&mut table);
    let mut words = [7; WORDS + 1];
    assert_eq!(gather(GSV_1.as_bytes(), &mut words, &mut table), WAITS);
    assert_eq!(table[..8], [3, 2, 11, 4, 3, 3, 111, 0]);
    assert_eq!(table[ROW..], [0; TABLE - ROW]);
    assert_eq!(words[WORDS], 7);
    let mut alone = [0; WORDS];
    answer(GSV_1.as_bytes(), &mut alone);
    assert_eq!(words[..WORDS], alone);

    let before = table;
    assert_eq!(gather(b"$GPGSA,A,1,,,,*33", &mut words, &mut table), NO_GSV);
    assert_eq!((words[0], words[1]), (5, 6));
    assert_eq!(gather(b"$GPGSA,A,1,,,,*32", &mut words, &mut table), NO_GSV);
    for (line, kind) in [(GGA, 6), (GLL, 7), (VTG, 8)] {
        assert_eq!(gather(line.as_bytes(), &mut words, &mut table), NO_GSV);
        assert_eq!(words[0], kind);
        let mut alone = [0; WORDS];
        answer(line.as_bytes(), &mut alone);
        assert_eq!(words[..WORDS], alone);
    }
    assert_eq!(table, before);

    assert_eq!(gather(GSV_2.as_bytes(), &mut words, &mut table), WAITS);
    assert_eq!(gather(GSV_3.as_bytes(), &mut words, &mut table), GROUP);
    assert_eq!(table[..4], [3, 0, 11, 11]);
    assert_eq!(gather(GSV_3.as_bytes(), &mut words, &mut table), NO_RUN);
    for (body, row) in [("QZGSV,1,1,00,", 4), ("GIGSV,1,1,00,", 5)] {
        let line = with_checksum(body);
        let did = gather(line.as_bytes(), &mut words, &mut table);
        assert_eq!(did, GROUP + row, "{line}");
    }
}

#[test]
fn a_row_that_is_read() {
    let mut table = [0; TABLE];
    let mut words = [0; WORDS];
    let line = with_checksum("GLGSV,1,1,02,65,,,,66,1,,40");
    assert_eq!(gather(line.as_bytes(), &mut words, &mut table), GROUP + 1);
    let mut read = [7; ROW_WORDS + 1];
    assert_eq!(row(&table, 1, &mut read), DONE);
    assert_eq!(read[..5], [2, 1, 0, 2, 2]);
    assert_eq!(read[5..13], [1, 65, 0, 0, 0, 0, 0, 0]);
    assert_eq!(read[13..21], [1, 66, 1, 1, 0, 0, 1, 40]);
    assert_eq!(read[21..ROW_WORDS], [0; ROW_WORDS - 21]);
    assert_eq!(read[ROW_WORDS], 7);
}

#[test]
fn what_is_too_short_is_left_alone() {
    let line = GSV_1.as_bytes();
    for (count, length) in [
        (WORDS - 1, TABLE),
        (WORDS, TABLE - 1),
        (WORDS, TABLE + 1),
        (0, 0),
    ] {
        let (mut words, mut table) = (vec![7; count], vec![7; length]);
        assert_eq!(gather(line, &mut words, &mut table), UNDONE);
        assert_eq!((words, table), (vec![7; count], vec![7; length]));
    }
    let mut over = [0; TABLE];
    over[3] = 37;
    for (table, at, count) in [
        (&[0; TABLE][..], 0, ROW_WORDS - 1),
        (&[0; TABLE - 1], 0, ROW_WORDS),
        (&[0; TABLE], 6, ROW_WORDS),
        (&[0; TABLE], usize::MAX, ROW_WORDS),
        (&over, 0, ROW_WORDS),
    ] {
        let mut words = vec![7; count];
        assert_eq!(row(table, at, &mut words), UNDONE);
        assert_eq!(words, vec![7; count]);
    }
}
