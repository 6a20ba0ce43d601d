//! examples/groups.c, compiled and run: it prints the groups that 01's words
//! give, of logs of any size, and tells what it could not read or write.
#![cfg(target_arch = "x86_64")]

use std::{
    env,
    error::Error,
    fs::{self, File},
    io::Write,
    path::{Path, PathBuf},
    process::{Command, Output, Stdio},
    sync::OnceLock,
    thread,
};

use oracle::{
    expected,
    lines::{corpus, generated_log},
    with_checksum, Answer, Log, System, WholeEntry,
};

type Checked = Result<(), Box<dyn Error>>;

/// The library that the program is linked with.
fn library() -> PathBuf {
    let built = "../crates/capi_c/out/libcapi_c.a";
    let library = match env::var_os("NMEA_LIB") {
        Some(folder) => PathBuf::from(folder).join("libcapi.a"),
        None => Path::new(env!("CARGO_MANIFEST_DIR")).join(built),
    };
    assert!(
        library.is_file(),
        "{} is not there: `rt lib` in crates/capi_c makes it",
        library.display()
    );
    library
}

/// The program, compiled once.
fn program() -> &'static Path {
    static PROGRAM: OnceLock<PathBuf> = OnceLock::new();
    PROGRAM.get_or_init(|| {
        let repository = Path::new(env!("CARGO_MANIFEST_DIR")).join("..");
        let program = Path::new(env!("CARGO_TARGET_TMPDIR")).join("groups");
        let output = Command::new("cc")
            .args(["-std=c99", "-Wall", "-Wextra", "-pedantic", "-Werror"])
            .arg("-I")
            .arg(repository.join("include"))
            .arg("-o")
            .arg(&program)
            .arg(repository.join("examples/groups.c"))
            .arg(library())
            .output()
            .expect("needs `cc`, a C compiler, which cargo links with too");
        let said = String::from_utf8_lossy(&output.stderr);
        assert!(output.status.success() && said.is_empty(), "{said}");
        program
    })
}

/// What the program does with a log on its standard input.
fn run(log: &[u8]) -> Result<Output, Box<dyn Error>> {
    let mut child = Command::new(program())
        .stdin(Stdio::piped())
        .stdout(Stdio::piped())
        .stderr(Stdio::piped())
        .spawn()?;
    let mut input = child.stdin.take().ok_or("no pipe to the program")?;
    let log = log.to_vec();
    let writer = thread::spawn(move || input.write_all(&log));
    let output = child.wait_with_output()?;
    writer.join().map_err(|_| "writing the log panicked")??;
    Ok(output)
}

/// A file in the tests' folder.
fn file(name: &str, bytes: &[u8]) -> Result<PathBuf, Box<dyn Error>> {
    let path = Path::new(env!("CARGO_TARGET_TMPDIR")).join(name);
    fs::write(&path, bytes)?;
    Ok(path)
}

/// What the program has to print, by the plain gatherer.
fn groups(log: &[u8]) -> String {
    let plain = Log::of(log);
    let entries_of = |line: &[u8]| expected(line).exact.entries.into_iter().flatten();
    let mut printed = String::new();
    for (index, group) in plain.groups() {
        let lines = plain.lines.iter().zip(&plain.answers);
        let of_system = lines
            .take(index + 1)
            .filter(|(_, answer)| {
                matches!(answer, Some(Answer::Gsv(record)) if record.system == group.system)
            })
            .map(|(line, _)| *line);
        let lines: Vec<&[u8]> = of_system.collect();
        let own = &lines[lines.len() - usize::from(group.sentences)..];
        let system = name(group.system);
        printed += &format!(
            "{} {system} {} {}",
            index + 1,
            group.sentences,
            group.in_view
        );
        for entry in own.iter().copied().flat_map(entries_of) {
            printed += &format!(" {}", text(&entry));
        }
        printed.push('\n');
    }
    printed
}

fn name(system: System) -> &'static str {
    match system {
        System::Gps => "GPS",
        System::Glonass => "GLONASS",
        System::Galileo => "Galileo",
        System::Beidou => "BeiDou",
        System::NavIc => "NavIC",
        System::Qzss => "QZSS",
    }
}

fn text(entry: &WholeEntry) -> String {
    let number = |number: Option<i32>| number.map_or("-".into(), |number| number.to_string());
    let places = [entry.elevation, entry.azimuth, entry.signal].map(number);
    format!("{}/{}", entry.satellite, places.join("/"))
}

/// Holds what the program prints to what it has to.
fn prints(log: &[u8], expected: &str, what: &str) -> Checked {
    let output = run(log)?;
    assert_eq!(String::from_utf8(output.stdout)?, expected, "{what}");
    assert_eq!(String::from_utf8(output.stderr)?, "", "{what}");
    assert_eq!(output.status.code(), Some(0), "{what}");
    Ok(())
}

/// Three sentences, a blank line between them.
fn worked() -> String {
    [
        "GPGSV,3,1,11,03,03,111,00,04,15,270,00,06,01,010,00,13,06,292,00",
        "GPGSV,3,2,11,14,25,170,00,16,57,208,39,18,67,296,40,19,40,246,00",
        "GPGSV,3,3,11,22,42,067,42,24,14,311,43,27,05,244,,,,,",
    ]
    .map(with_checksum)
    .join("\n\n")
}

const WORKED: &str =
    "5 GPS 3 11 3/3/111/0 4/15/270/0 6/1/10/0 13/6/292/0 14/25/170/0 16/57/208/39 \
                      18/67/296/40 19/40/246/0 22/42/67/42 24/14/311/43 27/5/244/-\n";

#[test]
fn a_worked_log() -> Checked {
    let log = worked();
    assert_eq!(groups(log.as_bytes()), WORKED);
    // The last line with and without a line feed, and with carriage returns.
    for end in ["", "\n", "\r", "\r\n"] {
        prints(format!("{log}{end}").as_bytes(), WORKED, end)?;
        let returns = log.replace('\n', "\r\n") + end;
        prints(returns.as_bytes(), WORKED, end)?;
    }
    Ok(())
}

/// A line has 102 bytes at most, beside its one carriage return.
#[test]
fn one_carriage_return_is_no_part_of_the_line() -> Checked {
    let mut line = with_checksum("GPGSV,1,1,01,07,,,");
    line += &"x".repeat(102 - line.len());
    for (end, printed) in [("\r\n", "1 GPS 1 1 7/-/-/-\n"), ("\r\r\n", "")] {
        let log = line.clone() + end;
        assert_eq!(groups(log.as_bytes()), printed);
        prints(log.as_bytes(), printed, end)?;
    }
    Ok(())
}

#[test]
fn a_file_that_is_named() -> Checked {
    let path = file("worked.nmea", worked().as_bytes())?;
    let output = Command::new(program()).arg(path).output()?;
    assert_eq!(String::from_utf8(output.stdout)?, WORKED);
    assert_eq!(output.status.code(), Some(0));
    let empty = file("empty.nmea", b"")?;
    let output = Command::new(program()).arg(empty).output()?;
    assert_eq!(output.status.code(), Some(0));
    assert!(output.stdout.is_empty() && output.stderr.is_empty());
    Ok(())
}

#[test]
fn generated_logs() -> Checked {
    let mut with_groups = 0;
    for seed in 0..200 {
        let log = generated_log(seed);
        let expected = groups(&log);
        prints(&log, &expected, &format!("seed {seed}"))?;
        with_groups += usize::from(!expected.is_empty());
    }
    assert!(with_groups > 100, "{with_groups}");
    Ok(())
}

/// Each real log, and all of them as one, which is longer than a walk takes.
#[test]
fn real_logs() -> Checked {
    let mut all = vec![];
    for log in corpus()? {
        prints(&log.bytes, &groups(&log.bytes), &log.name)?;
        all.extend(log.bytes);
    }
    let expected = groups(&all);
    assert!(all.len() > 65_536 && expected.lines().count() > 1_000);
    prints(&all, &expected, "all logs")
}

/// What is no line of a receiver's is read over, and nothing behind it lost:
/// lines around a power of two, one of more than a megabyte, and zero bytes.
#[test]
fn long_lines_and_zero_bytes() -> Checked {
    let sentence = with_checksum("GPGSV,1,1,01,07,,,");
    let lengths = [126, 127, 128, 129, 255, 256, 257, 65_535, 65_536, 3 << 20];
    for byte in [b'x', 0] {
        let mut log = vec![];
        for length in lengths {
            log.extend(vec![byte; length]);
            log.push(b'\n');
            log.extend(sentence.bytes());
            log.push(b'\n');
        }
        // A sentence with a zero byte in its data is one, and one with a byte before it is none.
        let zero = with_checksum("GPGSV,1,1,01,07,,,,\0");
        log.extend(zero.bytes());
        log.extend(b"\n\0");
        log.extend(sentence.bytes());
        let expected: String = (1..=lengths.len())
            .map(|group| format!("{} GPS 1 1 7/-/-/-\n", 2 * group))
            .chain(["21 GPS 1 1 7/-/-/-\n".into()])
            .collect();
        assert_eq!(groups(&log), expected);
        prints(&log, &expected, "long lines")?;
    }
    Ok(())
}

#[test]
fn what_cannot_be_read_or_written_is_told() -> Checked {
    let fails = |words: &[&Path], out: Stdio| -> Result<(Option<i32>, String), Box<dyn Error>> {
        let output = Command::new(program())
            .args(words)
            .stdin(Stdio::null())
            .stdout(out)
            .output()?;
        Ok((output.status.code(), String::from_utf8(output.stderr)?))
    };
    let none = Path::new("no-such.nmea");
    let (code, said) = fails(&[none], Stdio::null())?;
    assert_eq!(code, Some(1));
    assert!(said.starts_with("groups: no-such.nmea: "), "{said}");
    // A folder can be opened and not read.
    let (code, said) = fails(&[Path::new(env!("CARGO_TARGET_TMPDIR"))], Stdio::null())?;
    assert_eq!(code, Some(1));
    assert!(said.starts_with("groups: "), "{said}");
    let (code, said) = fails(&[none, none], Stdio::null())?;
    assert_eq!(code, Some(2));
    assert!(said.starts_with("usage: "), "{said}");

    // Few groups, which are written last, and many.
    for (name, times) in [("few.nmea", 1), ("many.nmea", 10_000)] {
        let log = file(name, (worked() + "\n").repeat(times).as_bytes())?;
        let full = File::options().write(true).open("/dev/full")?;
        let (code, said) = fails(&[&log], full.into())?;
        assert_eq!(code, Some(1), "{name}");
        assert!(said.starts_with("groups: standard output: "), "{said}");
        assert_eq!(said.lines().count(), 1, "{said}");
    }
    Ok(())
}
