//! The reader: where lines end, whatever the buffer, and what an input that fails does to it.

mod common;

use std::{
    collections::VecDeque,
    io::{self, BufRead, BufReader, ErrorKind, Read},
};

use common::{
    gatherer::Handed, held, logs::generated, worked_log, Random, GGA, GLL, GSV_1, GSV_2, GSV_3, VTG,
};
use proved_nmea::{Answer, Kind, Reader, LONGEST_LINE};

/// The bytes of each line that a reader gives, through a buffer of so many bytes.
fn lines(log: &[u8], capacity: usize) -> Vec<Vec<u8>> {
    let mut reader = Reader::new(BufReader::with_capacity(capacity, log));
    let mut lines = vec![];
    while let Some(line) = reader.next_line().expect("bytes in memory") {
        lines.push(line.bytes().to_vec());
    }
    lines
}

#[test]
fn ends_of_lines() {
    let table: [(&str, &[&str]); 12] = [
        ("", &[]),
        ("\n", &[""]),
        ("\r", &[""]),
        ("\r\n", &[""]),
        ("\r\r\n", &["\r"]),
        ("a", &["a"]),
        ("a\r", &["a"]),
        ("a\r\n", &["a"]),
        ("a\n\r", &["a", ""]),
        ("a\rb\n", &["a\rb"]),
        ("a\n\nb", &["a", "", "b"]),
        ("\n\r\n\n", &["", "", ""]),
    ];
    for (log, expected) in table {
        for capacity in 1..5 {
            let expected: Vec<&[u8]> = expected.iter().map(|line| line.as_bytes()).collect();
            assert_eq!(lines(log.as_bytes(), capacity), expected, "{log:?}");
        }
    }
}

/// A line feed at each place of a buffer, and at none.
#[test]
fn each_place_of_a_line_feed() {
    for length in 0..100 {
        let mut log = vec![b'x'; length];
        log.push(b'\n');
        log.extend(vec![b'y'; 70]);
        assert_eq!(lines(&log, 1 << 16), [vec![b'x'; length], vec![b'y'; 70]]);
    }
}

#[test]
fn each_capacity_gives_the_same() {
    let log = worked_log("\r\n");
    for capacity in 1..log.len() + 2 {
        let (_, groups) = held(log.as_bytes(), capacity);
        assert_eq!(groups.len(), 1);
        assert_eq!(groups[0].lines, [1, 2, 3]);
    }
}

/// A group is given at its last line, and by no line after it.
#[test]
fn a_group_is_given_once() {
    let log =
        format!("{GSV_1}\n\n{GSV_2}\nx\n{GGA}\n{GSV_3}\n{GLL}\n\n{GSV_3}\n$GPTXT,i*0A\n{VTG}");
    let mut reader = Reader::new(log.as_bytes());
    let mut given = vec![];
    while let Some(line) = reader.next_line().expect("bytes in memory") {
        given.push((line.kind(), line.group().map(|group| group.lines)));
    }
    let expected = [
        (Kind::Gsv, None),
        (Kind::Blank, None),
        (Kind::Gsv, None),
        (Kind::Refused, None),
        (Kind::Gga, None),
        (Kind::Gsv, Some(vec![1, 3, 6])),
        (Kind::Gll, None),
        (Kind::Blank, None),
        (Kind::Gsv, None),
        (Kind::Other, None),
        (Kind::Vtg, None),
    ];
    assert_eq!(given, expected);
    held(log.as_bytes(), 16);
}

#[test]
fn a_line_for_debugging() {
    let mut reader = Reader::new(&b"$GPGSA,A,1,,,,*33\n"[..]);
    let line = reader.next_line().expect("bytes").expect("a line");
    let expected = "Line { number: 1, bytes: \"$GPGSA,A,1,,,,*33\", \
                    answer: Refused(Checksum { calculated: 50, found: 51 }), group: None }";
    assert_eq!(format!("{line:?}"), expected);
    let text = format!("{reader:?}");
    assert!(text.contains("totals: Totals { lines: 1, "), "{text}");
}

/// What an input gives at each read: bytes, or an error.
struct Broken(VecDeque<Result<Vec<u8>, ErrorKind>>);

impl Read for Broken {
    fn read(&mut self, buffer: &mut [u8]) -> io::Result<usize> {
        match self.0.pop_front() {
            None => Ok(0),
            Some(Err(kind)) => Err(kind.into()),
            Some(Ok(mut bytes)) => {
                let rest = bytes.split_off(bytes.len().min(buffer.len()));
                buffer[..bytes.len()].copy_from_slice(&bytes);
                if !rest.is_empty() {
                    self.0.push_front(Ok(rest));
                }
                Ok(bytes.len())
            }
        }
    }
}

/// An input that fails now and then, within lines and between them: each error is given with its line, and no byte is
/// lost.
#[test]
fn an_input_that_fails() {
    let mut random = Random::new(6);
    let kinds = [
        ErrorKind::WouldBlock,
        ErrorKind::TimedOut,
        ErrorKind::Interrupted,
    ];
    for _ in 0..100 {
        let log = generated(&mut random, 3_000);
        let (mut reads, mut expected, mut rest) = (VecDeque::new(), vec![], &log[..]);
        while !rest.is_empty() {
            let (now, later) = rest.split_at(rest.len().min(1 + random.below(200)));
            reads.push_back(Ok(now.to_vec()));
            rest = later;
            if random.one_in(3) {
                let kind = random.pick(&kinds);
                reads.push_back(Err(kind));
                let read = &log[..log.len() - rest.len()];
                let line = 1 + read.iter().filter(|&&byte| byte == b'\n').count() as u64;
                if kind != ErrorKind::Interrupted {
                    expected.push((line, kind));
                }
            }
        }
        let (totals, groups) = held(&log, 1 << 16);
        let capacity = random.pick(&[1, 10, 1_000]);
        let mut reader = Reader::new(BufReader::with_capacity(capacity, Broken(reads)));
        let (mut errors, mut handed) = (vec![], vec![]);
        loop {
            match reader.next_line() {
                Ok(None) => break,
                Ok(Some(line)) => handed.extend(line.group().map(Handed::from)),
                Err(end) => errors.push((end.line, end.error.kind())),
            }
        }
        assert_eq!(reader.totals(), totals);
        assert_eq!(handed, groups);
        assert_eq!(errors, expected);
    }
}

#[test]
fn an_error_as_it_is() {
    let reads = VecDeque::from([
        Ok(b"x\ny".to_vec()),
        Err(ErrorKind::PermissionDenied),
        Ok(b"z\n".to_vec()),
    ]);
    let mut reader = Reader::new(BufReader::new(Broken(reads)));
    assert_eq!(reader.next_line().unwrap().unwrap().bytes(), b"x");
    let end = reader.next_line().unwrap_err();
    assert_eq!(end.to_string(), "line 2: permission denied");
    assert_eq!(io::Error::from(end).kind(), ErrorKind::PermissionDenied);
    assert_eq!(reader.next_line().unwrap().unwrap().bytes(), b"yz");
    assert!(reader.next_line().unwrap().is_none());
}

/// What no buffer may do: it has less when it is looked at again. That is an error, and no line.
struct Shrinking(Vec<&'static [u8]>);

impl Read for Shrinking {
    fn read(&mut self, _: &mut [u8]) -> io::Result<usize> {
        Ok(0)
    }
}

impl BufRead for Shrinking {
    fn fill_buf(&mut self) -> io::Result<&[u8]> {
        Ok(self.0.pop().unwrap_or_default())
    }

    fn consume(&mut self, _: usize) {}
}

#[test]
fn an_input_whose_buffer_shrinks() {
    let mut reader = Reader::new(Shrinking(vec![b"ab", b"abc\n"]));
    let end = reader.next_line().unwrap_err();
    assert_eq!((end.line, end.error.kind()), (1, ErrorKind::InvalidData));
    assert_eq!(reader.totals().lines, 0);
}

#[test]
fn the_longest_line() {
    let longest = LONGEST_LINE as u64;
    let log = |length| {
        let line = io::repeat(b'x').take(length);
        BufReader::with_capacity(1 << 20, (&b"y\n"[..]).chain(line).chain(&b"\nz"[..]))
    };
    let mut reader = Reader::new(log(longest - 1));
    assert_eq!(reader.next_line().unwrap().unwrap().bytes(), b"y");
    let line = reader.next_line().unwrap().expect("a line");
    assert_eq!(line.bytes().len(), LONGEST_LINE - 1);
    assert!(matches!(line.answer(), Answer::Refused(_)));
    assert_eq!(reader.next_line().unwrap().unwrap().bytes(), b"z");

    let mut reader = Reader::new(log(longest));
    assert!(reader.next_line().unwrap().is_some());
    for _ in 0..2 {
        let end = reader.next_line().unwrap_err();
        assert_eq!((end.line, end.error.kind()), (2, ErrorKind::InvalidData));
        let expected = "line 2: a line of more than 64 MiB, which no log has";
        assert_eq!(end.to_string(), expected);
    }
    assert_eq!(reader.totals().lines, 1);
}

#[test]
fn the_input_behind_the_last_line() {
    for capacity in [1, 3, 100] {
        let log = BufReader::with_capacity(capacity, &b"first\nsecond\nrest"[..]);
        let mut reader = Reader::new(log);
        reader.next_line().unwrap();
        assert_eq!(reader.next_line().unwrap().unwrap().bytes(), b"second");
        let mut rest = String::new();
        reader.into_inner().read_line(&mut rest).unwrap();
        assert_eq!(rest, "rest");
    }
}
