//! Refusals, by their numbers, names and values.

mod common;

use common::{letters, with_checksum, Random, GSV_1};
use proved_nmea::{read, refusal_number, walk, Refusal, System};

fn refused(line: &[u8]) -> Refusal {
    match read(line) {
        Err(refusal) => refusal,
        accepted => panic!("\"{}\" is {accepted:?}", line.escape_ascii()),
    }
}

#[test]
fn empty_input_and_the_longest_length() {
    assert_eq!(refused(b""), Refusal::Syntax);
    assert_eq!(refused(&[b'x'; 102]), Refusal::Syntax);
    assert_eq!(refused(&[b'x'; 103]), Refusal::TooLong(103));
}

#[test]
fn bytes_that_are_not_ascii_or_not_utf8() {
    assert_eq!(refused(&[0xC3, 0xA9]), Refusal::NotAscii);
    assert_eq!(refused(&[0xC3, 0x28]), Refusal::BadUtf8);
    assert_eq!(refused(&[0xED, 0xA0, 0x80]), Refusal::BadUtf8);
}

#[test]
fn length_is_tested_after_utf8_and_ascii() {
    let long = |end: &[u8]| [&[b'x'; 299], end].concat();
    assert_eq!(refused(&long(&[0xC3])), Refusal::BadUtf8);
    assert_eq!(refused(&long(&[0xC3, 0xA9])), Refusal::NotAscii);
    assert_eq!(refused(&long(b"x")), Refusal::TooLong(300));
}

#[test]
fn checksum() {
    let expected = Refusal::Checksum {
        calculated: 50,
        found: 51,
    };
    assert_eq!(refused(b"$GPGSA,A,1,,,,*33"), expected);
}

#[test]
fn unknown_type_and_talker() {
    assert_eq!(refused(b"$GPXYZ"), Refusal::UnknownType);
    let line = with_checksum("IDGSV,2,1,08,01,40,083,46");
    let expected = Refusal::UnknownTalker(letters(b"ID"));
    assert_eq!(refused(line.as_bytes()), expected);
}

#[test]
fn talker_and_tail_of_two_systems() {
    let line = with_checksum("GPGSA,A,1,,,,2");
    let expected = Refusal::SystemMismatch {
        talker: System::Gps,
        tail: System::Glonass,
    };
    assert_eq!(refused(line.as_bytes()), expected);
    let line = with_checksum("GBGSA,A,3,16,3.6,2.1,2.2,3");
    let expected = Refusal::SystemMismatch {
        talker: System::BeiDou,
        tail: System::Galileo,
    };
    assert_eq!(refused(line.as_bytes()), expected);
}

#[test]
fn numbers_times_and_dates() {
    let of = |body: &str| refused(with_checksum(body).as_bytes());
    assert_eq!(of("GPRMC,,A,,,,,fast,,,,"), Refusal::Number);
    assert_eq!(of("GPRMC,,A,,,,,12345678,,,,"), Refusal::Number);
    assert_eq!(of("GPRMC,,A,,,,,-12345678,,,,"), Refusal::Number);
    assert_eq!(of("GPRMC,240000,A,,,,,,,,,"), Refusal::Syntax);
    assert_eq!(of("GPRMC,,A,,,,,,,290223,,"), Refusal::Syntax);
}

/// Number stands before every other test of the seconds.
#[test]
fn seconds_with_a_sign() {
    let of = |time: &str| refused(with_checksum(&format!("GPRMC,{time},A,,,,,,,,,")).as_bytes());
    for seconds in ["-0", "-0.0", "-1", "-59.999999999", "-99", "-999"] {
        assert_eq!(of(&format!("0000{seconds}")), Refusal::Syntax, "{seconds}");
        assert_eq!(of(&format!("2460{seconds}")), Refusal::Syntax, "{seconds}");
    }
    for seconds in ["-1e1", "-", "--1", "+1", "-1000", "-1.", "-.5"] {
        assert_eq!(of(&format!("0000{seconds}")), Refusal::Number, "{seconds}");
        assert_eq!(of(&format!("2460{seconds}")), Refusal::Number, "{seconds}");
    }
}

/// A decimal has one minus sign at most, before its digits; and a plus sign is none.
#[test]
fn what_is_no_sign() {
    let places = [
        "GPRMC,0000@,A,,,,,,,,,",
        "GPRMC,,A,00@,N,0000,E,,,,,",
        "GPRMC,,A,000,N,000@,E,,,,,",
        "GPRMC,,A,,,,,@,,,,",
        "GPRMC,,A,,,,,,@,,,",
        "GPRMC,,A,,,,,,,,@,W",
        "GPGSA,A,1,16,@,1,1",
        "GPGSA,A,1,16,1.0,@,1",
        "GPGSA,A,1,16,1.0,1,@",
        "GPGGA,0000@,,,,,0,,,,,,",
        "GPGGA,,00@,N,0000,E,0,,,,,,",
        "GPGGA,,000,N,000@,E,0,,,,,,",
        "GPGGA,,,,,,0,,@,,,,",
        "GPGGA,,,,,,0,,,@,,,",
        "GPGGA,,,,,,0,,,,,@,",
        "GPGLL,00@,N,0000,E,,A,",
        "GPGLL,000,N,000@,E,,A,",
        "GPGLL,,,,,0000@,A,",
        "GPVTG,@,,,,,,",
        "GPVTG,,,@,,,,",
        "GPVTG,,,,,@,,",
        "GPVTG,,,,,,@,",
        "GPVTG,,,,,,N@,",
    ];
    for place in places {
        for text in [
            "--1", "-", "-.5", "1-1", "1-", "-1.", "-1.-5", "+1", "-+1", "+-1", "- 1", "-1e1",
        ] {
            let line = with_checksum(&place.replace('@', text));
            assert_eq!(refused(line.as_bytes()), Refusal::Number, "{line}");
        }
    }
}

/// Every comma stands, the one behind the geoid too, and the checks run left to right.
#[test]
fn gga() {
    let of = |rest: &str| refused(with_checksum(&format!("GPGGA,{rest}")).as_bytes());
    for rest in [
        "",
        ",,,,,0,,,,,",
        ",,,,0,,,,,,",
        ",,,,,,,,,,,",
        ",,,,,9,,,,,,",
        ",,,,,A,,,,,,",
        ",,,,,11,,,,,,",
        ",,,,,0,4294967296,,,,,",
        ",,,,,0,+8,,,,,",
        ",,,,,0,-8,,,,,",
        ",,,,,0,8.0,,,,,",
        ",,,,,0,,,,m,,",
        ",,,,,0,,,,MM,,",
        ",,,,,0,,,,M,1",
        "240000,,,,,0,,,,,,",
        "0000-1,,,,,0,,,,,,",
        ",000,E,0000,N,0,,,,,,",
        ",000,N,2560,E,0,,,,,,",
        // What comes first decides: the fix, the count and the letter stand before these decimals.
        ",,,,,9,,x,,,,",
        ",,,,,0,x,x,,,,",
        ",,,,,0,,,,X,x,",
    ] {
        assert_eq!(of(rest), Refusal::Syntax, "{rest}");
    }
    for rest in [
        "0000x,,,,,9,,,,,,",
        ",00x,N,0000,E,9,,,,,,",
        ",,,,,0,,x,,X,,",
        ",,,,,0,,1e5,,,,",
        ",,,,,0,,,12345678,,,",
        ",,,,,0,,,1.,X,,",
        ",,,,,0,,,,,.5,",
        ",,,,,0,,,,,x",
        ",,,,,0,,,,M,M,",
    ] {
        assert_eq!(of(rest), Refusal::Number, "{rest}");
    }
}

/// The comma behind the status stands, and behind it a mode or nothing.
#[test]
fn gll() {
    let of = |rest: &str| refused(with_checksum(&format!("GPGLL,{rest}")).as_bytes());
    for rest in [
        "",
        ",,,,,A",
        ",,,,,A,,",
        ",,,,,A,X",
        ",,,,,A,a",
        ",,,,,A,V",
        ",,,,,D,",
        ",,,,,,A",
        ",,,,,AA,",
        ",,,,A,",
        ",,,,,a,",
        ",,,,240000,A,",
        ",,,,0000-1,A,",
        ",,,,000000",
        "000,E,0000,N,,A,",
        "000,N,2560,E,,A,",
    ] {
        assert_eq!(of(rest), Refusal::Syntax, "{rest}");
    }
    for rest in [
        ",,,,0000x",
        ",,,,0000x,X,",
        "00x,N,0000,E,,X,",
        "000,N,0001e5,E,,X,",
    ] {
        assert_eq!(of(rest), Refusal::Number, "{rest}");
    }
}

/// Each decimal is checked, also the magnetic course, which is not kept, and kilometres per hour behind knots.
#[test]
fn vtg() {
    let of = |rest: &str| refused(with_checksum(&format!("GPVTG,{rest}")).as_bytes());
    for rest in [
        "",
        ",,,,,",
        ",,,,,N",
        ",t,,,,,",
        ",TT,,,,,",
        ",M,,,,,",
        ",,,m,,,",
        ",,,T,,,",
        ",X,x,,,,",
        ",,,X,x,,",
        "1,T,1,M,1,N1",
    ] {
        assert_eq!(of(rest), Refusal::Syntax, "{rest}");
    }
    assert_eq!(refused(b"$GPVTG,,,1e5,,,,*1F"), Refusal::Number);
    for rest in [
        "x,X,,,,,",
        "12345678,,,,,,",
        "T,,,,,,",
        ",,1e5,X,,,",
        ",,M,,,,",
        ",,,,N,,",
        ",,,,x,,",
        ",,,,,K,",
        ",,,,,NK,",
        ",,,,,NN,",
        ",,,,,1N,",
        ",,,,,N1K,",
        ",,,,,n,",
        ",,,,1,K,",
        ",,,,1,Nx,",
        ",,,,1,12345678,",
        ",,,,,x",
    ] {
        assert_eq!(of(rest), Refusal::Number, "{rest}");
    }
}

/// Every refusal with its number, and as it is printed.
#[test]
fn all_thirteen() {
    let table = [
        (Refusal::BadUtf8, "refused 1 BadUtf8"),
        (Refusal::NotAscii, "refused 2 NotAscii"),
        (Refusal::TooLong(103), "refused 3 TooLong (length 103)"),
        (Refusal::Syntax, "refused 4 Syntax"),
        (Refusal::UnknownType, "refused 5 UnknownType"),
        (
            Refusal::Checksum {
                calculated: 0x5C,
                found: 0x0D,
            },
            "refused 6 Checksum (calculated 5C, found 0D)",
        ),
        (
            Refusal::UnknownTalker(letters(b"I\t")),
            "refused 7 UnknownTalker (talker I\\t)",
        ),
        (
            Refusal::SystemMismatch {
                talker: System::Gps,
                tail: System::BeiDou,
            },
            "refused 8 SystemMismatch (talker GPS, tail BeiDou)",
        ),
        (Refusal::Number, "refused 9 Number"),
        (
            Refusal::WrongHeader {
                expected: letters(b"RMC"),
                found: letters(b"GSV"),
            },
            "refused 10 WrongHeader (expected RMC, found GSV)",
        ),
        (Refusal::BadTime, "refused 11 BadTime"),
        (
            Refusal::LogTooLong(65_537),
            "refused 12 LogTooLong (length 65537)",
        ),
        (Refusal::BadPlace(7), "refused 13 BadPlace (place 7)"),
    ];
    for (number, (refusal, text)) in (1..).zip(table) {
        assert_eq!(refusal.number(), number);
        assert_eq!(refusal.to_string(), text);
        assert!(text.contains(refusal.name()));
    }
}

#[test]
fn a_log_over_its_length() {
    assert_eq!(
        walk(&[b'\n'; 65_536]).map(|totals| totals.blank),
        Ok(65_536)
    );
    assert_eq!(walk(&[b'\n'; 65_537]), Err(Refusal::LogTooLong(65_537)));
}

/// Any bytes are answered, and both functions answer the same.
#[test]
fn any_bytes() {
    let mut random = Random::new(7);
    let bodies = [
        "GNRMC,101500.25,A,5130.5,N,00006.0,W,4.5,270.0,290224,20.3,W,A,V",
        "GPGSA,A,3,,,,,,16,18,,22,24,,,3.6,2.1,2.2,1",
        "GPGSV,3,3,11,22,42,067,42,24,14,311,43,27,05,244,00",
        "GPTXT,01,01,02",
        "GPGGA,123519,4807.038,N,01131.324,E,1,08,0.9,545.4,M,46.9,M,,",
        "GPGLL,5130.5,N,00006.0,W,101500.25,A,A",
        "GPVTG,360.0,T,348.7,M,000.0,N,000.0,K",
        "GPVTG,,T,,M,,N10.2,K",
    ];
    let mut accepted = 0;
    for _ in 0..100_000 {
        let line = match random.below(4) {
            // Bytes of any kind.
            0 => (0..random.below(120))
                .map(|_| random.below(256) as u8)
                .collect(),
            // A sentence with a field changed, and the checksum that it then has.
            1 | 2 => {
                let mut body = random.pick(&bodies).as_bytes().to_vec();
                for _ in 0..random.below(3) {
                    let at = random.below(body.len());
                    body[at] = random.pick(b",,.0123456789+-AVNSEWXMTK");
                }
                with_checksum(&String::from_utf8(body).unwrap()).into_bytes()
            }
            // A byte changed, and not the checksum.
            _ => {
                let mut line = with_checksum(random.pick(&bodies)).into_bytes();
                let at = random.below(line.len());
                line[at] = random.below(256) as u8;
                line
            }
        };
        let number = match read(&line) {
            Ok(_) => 0,
            Err(refusal) => refusal.number(),
        };
        assert_eq!(number, refusal_number(&line), "{}", line.escape_ascii());
        accepted += u32::from(number == 0);
    }
    assert!(
        (10_000..90_000).contains(&accepted),
        "{accepted} are accepted"
    );
}

/// Each byte of a sentence, between `$` and `*`, is in its checksum.
#[test]
fn any_byte_changed() {
    let star = GSV_1.find('*').unwrap();
    for at in 1..star {
        let mut line = GSV_1.as_bytes().to_vec();
        line[at] ^= 1;
        if line[at] != b'*' {
            assert_ne!(refusal_number(&line), 0, "{}", line.escape_ascii());
        }
    }
}
