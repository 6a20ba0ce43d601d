//! The program `transfer`, run on files and pipes.

mod common;

use std::{
    ffi::OsStr,
    fs::{self, File},
    io::{BufRead, BufReader, Write},
    path::{Path, PathBuf},
    process::{Child, Command, Stdio},
};

use common::{
    corpus,
    gatherer::gathered,
    json::{parsed, Json},
    log_of,
    logs::{damaged, generated},
    with_checksum, worked_log, Random, GGA, GLL, GSV_1, GSV_2, GSV_3, VTG, WORKED_TOTALS,
};
use proved_nmea::{walk, Totals};

const NO_LINES: &str = "lines 0 blank 0 accepted 0 refused 0 groups 0";

/// Two receivers under one talker, interleaved on one cable.
const TWO_RECEIVERS: &[u8] = b"\
$GPGSV,2,1,05,01,10,100,40,02,20,110,41,03,30,120,42,04,40,130,43*7F
$GPGSV,2,1,05,11,11,101,30,12,21,111,31,13,31,121,32,14,41,131,33*7F
$GPGSV,2,2,05,05,50,140,44*49
$GPGSV,2,2,05,15,51,141,34*4F
";

/// A folder of a test's own.
struct Folder(PathBuf);

impl Folder {
    fn new(name: &str) -> Self {
        let folder = Path::new(env!("CARGO_TARGET_TMPDIR")).join(name);
        let _ = fs::remove_dir_all(&folder);
        fs::create_dir_all(&folder).expect("a folder for the test");
        Folder(folder)
    }

    /// A file of that name with these bytes.
    fn file(&self, name: impl AsRef<OsStr>, bytes: impl AsRef<[u8]>) -> PathBuf {
        let path = self.0.join(name.as_ref());
        fs::write(&path, bytes).expect("a file for the test");
        path
    }
}

impl Drop for Folder {
    fn drop(&mut self) {
        let _ = fs::remove_dir_all(&self.0);
    }
}

/// What a run of the program left.
#[derive(Debug, PartialEq)]
struct Ran {
    out: String,
    error: String,
    status: Option<i32>,
}

fn transfer() -> Command {
    Command::new(env!("CARGO_BIN_EXE_transfer"))
}

fn run(words: &[impl AsRef<OsStr>]) -> Ran {
    ran(transfer()
        .args(words)
        .stdin(Stdio::null())
        .stdout(Stdio::piped())
        .stderr(Stdio::piped())
        .spawn()
        .expect("transfer starts"))
}

fn ran(child: Child) -> Ran {
    let output = child.wait_with_output().expect("transfer ends");
    Ran {
        out: String::from_utf8(output.stdout).expect("text"),
        error: String::from_utf8(output.stderr).expect("text"),
        status: output.status.code(),
    }
}

/// A run whose standard input is a pipe. One that waits for ever is ended, so that its test fails.
fn piped(words: &[&str]) -> Child {
    Command::new("timeout")
        .args(["20", env!("CARGO_BIN_EXE_transfer")])
        .args(words)
        .stdin(Stdio::piped())
        .stdout(Stdio::piped())
        .stderr(Stdio::piped())
        .spawn()
        .expect("transfer starts")
}

/// A run on these bytes as standard input.
fn run_on(words: &[&str], bytes: &[u8]) -> Ran {
    let mut child = piped(words);
    let mut input = child.stdin.take().expect("a pipe");
    input.write_all(bytes).expect("transfer reads");
    drop(input);
    ran(child)
}

/// A run of a shell's line, in which `$0` is the program.
fn shell(line: &str, words: &[&Path]) -> Ran {
    let mut shell = Command::new("sh");
    shell.args(["-c", line, env!("CARGO_BIN_EXE_transfer")]);
    ran(shell
        .args(words)
        .stdin(Stdio::null())
        .stdout(Stdio::piped())
        .stderr(Stdio::piped())
        .spawn()
        .expect("a shell"))
}

/// A run on one file that is read to its end: what it prints, line by line.
/// The file's name is shown as FILE.
fn prints(folder: &Folder, bytes: impl AsRef<[u8]>) -> Vec<String> {
    let file = folder.file("log", bytes);
    let ran = run(&[&file]);
    assert_eq!((ran.error.as_str(), ran.status), ("", Some(0)));
    let name = file.display().to_string();
    ran.out
        .lines()
        .map(|line| line.replace(&name, "FILE"))
        .collect()
}

#[test]
fn the_worked_log() {
    let folder = Folder::new("worked");
    let expected = [
        "FILE:5: refused 6 Checksum (calculated 32, found 33)",
        WORKED_TOTALS,
    ];
    let log = worked_log("\n");
    assert_eq!(prints(&folder, &log), expected);
    assert_eq!(prints(&folder, log.trim_end()), expected);
    assert_eq!(prints(&folder, worked_log("\r\n")), expected);
}

#[test]
fn refused_lines_with_their_values() {
    let folder = Folder::new("refused");
    let mut log = b"\xC3\x28\n\xC3\xA9\n".to_vec();
    log.extend([b'x'; 103]);
    log.extend(b"\nnonsense\n$GPXYZ\n\n$GPGSA,A,1,,,,*33\n");
    log.extend(log_of(&[
        "IDGSV,1,1,00,",
        "GPGSA,A,1,,,,2",
        "GPRMC,,A,,,,,.5,,,,",
        "GPTXT,i",
    ]));
    let expected = [
        "FILE:1: refused 1 BadUtf8",
        "FILE:2: refused 2 NotAscii",
        "FILE:3: refused 3 TooLong (length 103)",
        "FILE:4: refused 4 Syntax",
        "FILE:5: refused 5 UnknownType",
        "FILE:7: refused 6 Checksum (calculated 32, found 33)",
        "FILE:8: refused 7 UnknownTalker (talker ID)",
        "FILE:9: refused 8 SystemMismatch (talker GPS, tail GLONASS)",
        "FILE:10: refused 9 Number",
        "lines 11 blank 1 accepted 1 refused 9 groups 0",
    ];
    assert_eq!(prints(&folder, log), expected);
}

#[test]
fn lines_and_their_ends() {
    let folder = Folder::new("ends");
    let blank = "lines 1 blank 1 accepted 0 refused 0 groups 0";
    let refused = "lines 1 blank 0 accepted 0 refused 1 groups 0";
    let syntax = "FILE:1: refused 4 Syntax";
    assert_eq!(prints(&folder, ""), [NO_LINES]);
    assert_eq!(prints(&folder, "\n"), [blank]);
    assert_eq!(prints(&folder, "\r"), [blank]);
    assert_eq!(prints(&folder, "\r\n"), [blank]);
    assert_eq!(prints(&folder, "\r\r\n"), [syntax, refused]);
    assert_eq!(prints(&folder, "\0\0"), [syntax, refused]);
    let log = format!("{GSV_1}\0\0\r\n{GSV_2}\r\n{GSV_3}\r");
    assert_eq!(
        prints(&folder, log),
        ["lines 3 blank 0 accepted 3 refused 0 groups 1"]
    );
}

#[test]
fn a_log_of_more_than_the_walk_takes() {
    let folder = Folder::new("large");
    let printed = prints(&folder, worked_log("\n").repeat(10_000));
    assert_eq!(printed.len(), 10_001);
    assert_eq!(
        printed[9_999],
        "FILE:50000: refused 6 Checksum (calculated 32, found 33)"
    );
    assert_eq!(
        printed[10_000],
        "lines 50000 blank 10000 accepted 30000 refused 10000 groups 10000"
    );
}

#[test]
fn a_line_of_megabytes() {
    let folder = Folder::new("megabytes");
    let length = 5 << 20;
    let mut log = vec![b'x'; length];
    log.extend(b"\n$GPGSA,A,1,,,,*32\n");
    let expected = [
        format!("FILE:1: refused 3 TooLong (length {length})"),
        "lines 2 blank 0 accepted 1 refused 1 groups 0".into(),
    ];
    assert_eq!(prints(&folder, log), expected);
}

/// The line is not kept in memory whole, and the file is not taken for read.
#[test]
fn a_line_that_no_log_has() {
    let folder = Folder::new("endless");
    let endless = folder.file("endless", worked_log("\n"));
    let opened = File::options().append(true).open(&endless).unwrap();
    // Zeros, which take no room on the disk.
    opened.set_len((64 << 20) + 1_000).unwrap();
    let ran = run(&[&endless]);
    assert_eq!(ran.status, Some(1));
    assert!(ran.out.ends_with(&format!("\n{WORKED_TOTALS}\n")));
    let why = "a line of more than 64 MiB, which no log has; read and counted up to line 5";
    assert_eq!(
        ran.error,
        format!("transfer: {}: {why}\n", endless.display())
    );
}

#[test]
fn several_files_have_a_gatherer_each() {
    let folder = Folder::new("several");
    let first = folder.file("first", format!("{GSV_1}\n{GSV_2}\n"));
    let second = folder.file("second", format!("{GSV_3}\n"));
    let third = folder.file("third", worked_log("\n"));
    let ran = run(&[&first, &second, &third]);
    let (first, second, third) = (first.display(), second.display(), third.display());
    let expected = format!(
        "{first}: lines 2 blank 0 accepted 2 refused 0 groups 0\n\
         {second}: lines 1 blank 0 accepted 1 refused 0 groups 0\n\
         {third}:5: refused 6 Checksum (calculated 32, found 33)\n\
         {third}: {WORKED_TOTALS}\n\
         total: lines 8 blank 1 accepted 6 refused 1 groups 1\n"
    );
    assert_eq!(ran.out, expected);
    assert_eq!((ran.error.as_str(), ran.status), ("", Some(0)));
}

#[test]
fn a_missing_file_is_named_and_the_others_are_read() {
    let folder = Folder::new("missing");
    let missing = folder.0.join("missing");
    let log = folder.file("log", worked_log("\n"));
    let ran = run(&[&missing, &log]);
    assert_eq!(ran.status, Some(1));
    let named = format!("transfer: {}: ", missing.display());
    assert!(ran.error.starts_with(&named), "{}", ran.error);
    assert_eq!(ran.error.lines().count(), 1);
    let name = log.display();
    let expected = format!(
        "{name}:5: refused 6 Checksum (calculated 32, found 33)\n\
         {name}: {WORKED_TOTALS}\n\
         total: {WORKED_TOTALS}\n"
    );
    assert_eq!(ran.out, expected);
}

#[test]
fn a_folder_is_no_log() {
    let folder = Folder::new("folder");
    let log = folder.file("log", "");
    let ran = run(&[&log, &folder.0]);
    assert_eq!(ran.status, Some(1));
    let named = format!("transfer: {}: ", folder.0.display());
    assert!(ran.error.starts_with(&named), "{}", ran.error);
    let name = log.display();
    assert_eq!(ran.out, format!("{name}: {NO_LINES}\ntotal: {NO_LINES}\n"));
}

#[test]
fn where_nothing_is_read_there_are_no_totals() {
    let folder = Folder::new("nothing");
    let missing = folder.0.join("missing");
    for words in [
        &["--summary".as_ref(), missing.as_path()][..],
        &["--json".as_ref(), missing.as_path()],
        &[missing.as_path(), folder.0.as_path()],
    ] {
        let ran = run(words);
        assert_eq!((ran.out.as_str(), ran.status), ("", Some(1)));
        assert!(ran.error.starts_with("transfer: "), "{}", ran.error);
    }
}

#[test]
fn usage() {
    let bad = [
        (&["-x"][..], "there is no option -x"),
        (&["--count", "log"], "there is no option --count"),
        (&["-\u{1b}[2J"], "there is no option -\\u{1b}[2J"),
        (
            &["--json", "log", "--groups"],
            "--json prints the groups too: leave --groups out",
        ),
        (
            &["-", "log", "-"],
            "- is named twice, and standard input is read once",
        ),
    ];
    for (words, why) in bad {
        let ran = run(words);
        assert_eq!((ran.out.as_str(), ran.status), ("", Some(2)), "{words:?}");
        let begin = format!("transfer: {why}\nusage: transfer ");
        assert!(ran.error.starts_with(&begin), "{}", ran.error);
    }
    for word in ["-h", "--help"] {
        let ran = run(&[word]);
        assert_eq!((ran.error.as_str(), ran.status), ("", Some(0)));
        assert!(ran.out.starts_with("usage: transfer "));
    }
}

#[test]
fn standard_input() {
    let expected = format!("-:5: refused 6 Checksum (calculated 32, found 33)\n{WORKED_TOTALS}\n");
    for words in [&[][..], &["-"], &["--"]] {
        let ran = run_on(words, worked_log("\n").as_bytes());
        assert_eq!(
            (ran.out.as_str(), ran.error.as_str()),
            (expected.as_str(), "")
        );
        assert_eq!(ran.status, Some(0));
    }
    // A file's table is not standard input's.
    let folder = Folder::new("standard");
    let file = folder.file("log", format!("{GSV_1}\n{GSV_2}\n"));
    let name = file.to_str().expect("a name in UTF-8");
    let ran = run_on(&[name, "-"], GSV_3.as_bytes());
    let expected = format!(
        "{name}: lines 2 blank 0 accepted 2 refused 0 groups 0\n\
         -: lines 1 blank 0 accepted 1 refused 0 groups 0\n\
         total: lines 3 blank 0 accepted 3 refused 0 groups 0\n"
    );
    assert_eq!(ran.out, expected);
    // Behind `--` it is a file's name.
    let ran = run(&["--", "-"]);
    assert_eq!((ran.out.as_str(), ran.status), ("", Some(1)));
}

/// A line is answered when it has come, though the pipe stays open.
#[test]
fn a_pipe_that_stays_open() {
    let mut child = piped(&["--groups"]);
    let mut input = child.stdin.take().expect("a pipe");
    let mut lines = BufReader::new(child.stdout.take().expect("a pipe")).lines();
    let mut send = |text: &str| input.write_all(text.as_bytes()).expect("transfer reads");
    let mut next = || lines.next().expect("a line").expect("text");
    send("nonsense\n$GPGSA,A,1,,");
    assert_eq!(next(), "-:1: refused 4 Syntax");
    send(",,*33\n");
    assert_eq!(next(), "-:2: refused 6 Checksum (calculated 32, found 33)");
    send("$GPGSV,1,1,00,*55\n");
    assert_eq!(next(), "-:3: group GPS sentences 1 in view 0 satellites");
    send("x");
    drop(input);
    assert_eq!(next(), "-:4: refused 4 Syntax");
    assert_eq!(next(), "lines 4 blank 0 accepted 1 refused 3 groups 1");
    assert_eq!(child.wait().expect("transfer ends").code(), Some(0));
}

/// By 01's words these are one group, and it has half of each receiver's list.
#[test]
fn two_receivers_interleaved() {
    let ran = run_on(&["--groups"], TWO_RECEIVERS);
    let expected = "-:2,3: group GPS sentences 2 in view 5 satellites \
                    11 (11 101 30) 12 (21 111 31) 13 (31 121 32) 14 (41 131 33) 5 (50 140 44)\n\
                    lines 4 blank 0 accepted 4 refused 0 groups 1\n";
    assert_eq!(ran.out, expected);
    assert_eq!((ran.error.as_str(), ran.status), ("", Some(0)));
}

#[test]
fn groups_with_their_lines() {
    let log = format!("x\n{GSV_1}\n{GSV_2}\n\n{GSV_3}\n");
    let log = log + &with_checksum("QZGSV,1,1,02,193,,,,194,5,,7");
    let ran = run_on(&["--groups"], log.as_bytes());
    let expected = "-:1: refused 4 Syntax\n\
         -:2,3,5: group GPS sentences 3 in view 11 satellites \
         3 (3 111 0) 4 (15 270 0) 6 (1 10 0) 13 (6 292 0) 14 (25 170 0) 16 (57 208 39) \
         18 (67 296 40) 19 (40 246 0) 22 (42 67 42) 24 (14 311 43) 27 (5 244 0)\n\
         -:6: group QZSS sentences 1 in view 2 satellites 193 (- - -) 194 (5 - 7)\n\
         lines 6 blank 1 accepted 4 refused 1 groups 2\n";
    assert_eq!(ran.out, expected);
}

/// A log that has one of each thing that the summary counts.
fn summed_up() -> Vec<u8> {
    let mut log = log_of(&[
        "GPGSV,1,1,02,01,,,",
        "GPGSV,1,1,01,01,,,,02,,,",
        "GPGSV,1,1,01,01,,,",
        "GPGSV,2,2,01,01,,,",
        "GLGSV,2,1,00,",
        "GLGSV,2,2,00,",
        "GPGSA,A,1,,,,",
        "GNGSA,A,1,,,,",
        "GNRMC,,A,,,,,,,,,",
        "GPTXT,i",
        "GPTXT,j",
        "IDGSV,1,1,00,",
    ]);
    log.extend(b"\nx\ny\n$GPGSA,A,1,,,,*33\n");
    // Bytes after a checksum: a sentence, one that is damaged, one behind other bytes, and none.
    log.extend(b"$GPGSA,A,1,,,,*32$GPGSA,A,1,,,,*32\n$GPGSA,A,1,,,,*32$GPGSA,A,1,,,,*33\n");
    log.extend(b"$GPGSA,A,1,,,,*32 $$GPTXT,i*0A \n$GPGSA,A,1,,,,*32 \n");
    log
}

#[test]
fn a_summary() {
    let ran = run_on(&["--summary"], &summed_up());
    let mut lines = ran.out.lines().filter(|line| !line.starts_with("-:"));
    let totals = "lines 20 blank 1 accepted 15 refused 4 groups 4";
    assert_eq!(lines.next(), Some(totals));
    let expected = [
        "type GSA 6",
        "type GSV 6",
        "type RMC 1",
        "type TXT 2",
        "refused 4 Syntax 2",
        "refused 6 Checksum 1",
        "refused 7 UnknownTalker 1",
        "system GPS gsv 4 gsa 5 groups 3",
        "system GLONASS gsv 2 gsa 0 groups 1",
        "gsv in no group 1",
        "groups with fewer entries than in view 1",
        "groups with more entries than in view 1",
        "bytes after the checksum 4",
        "a sentence after the checksum 2",
    ];
    assert_eq!(lines.collect::<Vec<_>>(), expected);
    assert_eq!((ran.error.as_str(), ran.status), ("", Some(0)));
}

/// The three have their types' counts, and what is wrong with one its refusal.
#[test]
fn a_summary_of_gga_gll_and_vtg() {
    let mut log = format!("{GGA}\n{GLL}\n{VTG}\n{VTG} \n");
    log += &format!("{}\n", with_checksum("GPGLL,,,,,,A,,"));
    log += &format!("{}\n", with_checksum("GPVTG,,,,,1,K,"));
    let ran = run_on(&["--groups", "--summary"], log.as_bytes());
    let expected = "-:5: refused 4 Syntax\n-:6: refused 9 Number\n\
                    lines 6 blank 0 accepted 4 refused 2 groups 0\n\
                    type GGA 1\ntype GLL 1\ntype VTG 2\nrefused 4 Syntax 1\nrefused 9 Number 1\n\
                    gsv in no group 0\ngroups with fewer entries than in view 0\n\
                    groups with more entries than in view 0\nbytes after the checksum 1\n\
                    a sentence after the checksum 0\n";
    assert_eq!(ran.out, expected);
    assert_eq!((ran.error.as_str(), ran.status), ("", Some(0)));
}

/// One over all files, behind their totals.
#[test]
fn a_summary_of_several_files() {
    let folder = Folder::new("summary");
    let first = folder.file("first", format!("{GSV_1}\n"));
    let second = folder.file("second", format!("{GSV_2}\n{GSV_3}\n"));
    let ran = run(&["--summary".as_ref(), first.as_path(), second.as_path()]);
    let summary = ran.out.split_once("total: ").expect("totals").1;
    let expected = "lines 3 blank 0 accepted 3 refused 0 groups 0\ntype GSV 3\n\
                    system GPS gsv 3 gsa 0 groups 0\ngsv in no group 3\n";
    assert!(summary.starts_with(expected), "{summary}");
}

// JSON Lines

fn objects(text: &str) -> Vec<Json> {
    text.lines().map(parsed).collect()
}

/// A decimal as an object has it.
fn decimal(text: &str, whole: i32, decimals: u8, value: &str) -> String {
    format!(r#"{{"text":"{text}","whole":{whole},"decimals":{decimals},"value":{value}}}"#)
}

#[test]
fn objects_of_each_kind() {
    let mut log = log_of(&[
        "GNRMC,101500.25,A,5130.5,N,00006.0,W,4.5,270.0,290224,0.0,W,A,V",
        "GNRMC,,V,,,,,,,,,",
        "GPGSA,A,3,16,18,3.6,2.1,2.20",
        "BDGSV,1,1,02,01,2,3,4,05,,,",
        "GPTXT,i",
    ]);
    log.extend(b"\n$GPGSA,A,1,,,,*33\n");
    log.extend(log_of(&["I\tGSV,1,1,00,", "GPGSA,A,1,,,,2"]));
    log.extend([b'x'; 103]);
    log.extend(b"\n$GPTXT,i*0A and more");
    let ran = run_on(&["--json"], &log);
    assert_eq!((ran.error.as_str(), ran.status), ("", Some(0)));
    let line = |kind: &str, line: u64, rest: &str| {
        format!(r#"{{"kind":"{kind}","file":"-","line":{line}{rest}}}"#)
    };
    let speed = decimal("4.5", 45, 1, "4.5");
    let course = decimal("270.0", 2700, 1, "270.0");
    let variation = decimal("-0.0", 0, 1, "-0.0");
    let rmc = format!(
        concat!(
            r#","after_checksum":0,"talker":"GN","date":"2024-02-29","time":"10:15:00.250000000","#,
            r#""seconds":1709201700,"nanoseconds":250000000,"status":"A","#,
            r#""latitude":{{"billionths":3090500000000,"hemisphere":"N","degrees":51.50833333333333}},"#,
            r#""longitude":{{"billionths":-6000000000,"hemisphere":"W","degrees":-0.1}},"#,
            r#""speed":{},"course":{},"variation":{},"mode":"A","navigational_status":"V""#,
        ),
        speed, course, variation
    );
    let bare = concat!(
        r#","after_checksum":0,"talker":"GN","date":null,"time":null,"seconds":null,"nanoseconds":null,"#,
        r#""status":"V","latitude":null,"longitude":null,"speed":null,"course":null,"#,
        r#""variation":null,"mode":null,"navigational_status":null"#,
    );
    let gsa = format!(
        concat!(
            r#","after_checksum":0,"talker":"GP","system":"GPS","selection":"A","fix":"3","#,
            r#""pdop":{},"hdop":{},"vdop":{},"satellites":[16,18]"#,
        ),
        decimal("3.6", 36, 1, "3.6"),
        decimal("2.1", 21, 1, "2.1"),
        decimal("2.20", 220, 2, "2.2")
    );
    let satellites = concat!(
        r#""satellites":[{"satellite":1,"elevation":2,"azimuth":3,"signal":4},"#,
        r#"{"satellite":5,"elevation":null,"azimuth":null,"signal":null}]"#,
    );
    let gsv = format!(
        r#","after_checksum":0,"talker":"BD","system":"BeiDou","sentences":1,"number":1,"in_view":2,{satellites}"#
    );
    let expected = [
        line("rmc", 1, &rmc),
        line("rmc", 2, bare),
        line("gsa", 3, &gsa),
        line("gsv", 4, &gsv),
        format!(
            r#"{{"kind":"group","file":"-","lines":[4],"system":"BeiDou","sentences":1,"in_view":2,{satellites}}}"#
        ),
        line(
            "other",
            5,
            r#","after_checksum":0,"talker":"GP","type":"TXT""#,
        ),
        line("blank", 6, ""),
        line(
            "refused",
            7,
            r#","refusal":6,"name":"Checksum","calculated":50,"found":51"#,
        ),
        line(
            "refused",
            8,
            r#","refusal":7,"name":"UnknownTalker","talker":"I\u0009""#,
        ),
        line(
            "refused",
            9,
            r#","refusal":8,"name":"SystemMismatch","talker_system":"GPS","tail_system":"GLONASS""#,
        ),
        line(
            "refused",
            10,
            r#","refusal":3,"name":"TooLong","length":103"#,
        ),
        line(
            "other",
            11,
            r#","after_checksum":9,"talker":"GP","type":"TXT""#,
        ),
        r#"{"kind":"totals","file":"-","lines":11,"blank":1,"accepted":6,"refused":4,"groups":1}"#
            .into(),
    ];
    assert_eq!(ran.out.lines().collect::<Vec<_>>(), expected);
    objects(&ran.out);
}

/// Whole objects of the three: worked, bare, and a speed in km/h.
#[test]
fn objects_of_gga_gll_and_vtg() {
    let mut log = format!("{GGA}\n{GLL}\n{VTG}\n").into_bytes();
    log.extend(log_of(&[
        "GNGGA,,,,,,0,,,,,,",
        "GNGLL,,,,,,V,",
        "GNVTG,,,,,,,",
        "GPVTG,-0,T,,M,,N10.20,K",
        "GPVTG,,,,,,-0,",
        "GPGGA,,,,,,8,4294967295,-0,-4.50,M,-0.0,M",
    ]));
    let ran = run_on(&["--json"], &log);
    assert_eq!((ran.error.as_str(), ran.status), ("", Some(0)));
    let line = |kind: &str, line: u64, talker: &str, rest: &str| {
        let head = format!(r#""kind":"{kind}","file":"-","line":{line},"after_checksum":0"#);
        format!(r#"{{{head},"talker":"{talker}",{rest}}}"#)
    };
    let gga = format!(
        concat!(
            r#""time":"12:35:19.000000000","#,
            r#""latitude":{{"billionths":2887038000000,"hemisphere":"N","degrees":48.1173}},"#,
            r#""longitude":{{"billionths":691324000000,"hemisphere":"E","degrees":11.522066666666667}},"#,
            r#""fix":"1","satellites":8,"hdop":{},"altitude":{},"geoid_separation":{}"#,
        ),
        decimal("0.9", 9, 1, "0.9"),
        decimal("545.4", 5454, 1, "545.4"),
        decimal("46.9", 469, 1, "46.9")
    );
    let gll = concat!(
        r#""time":"10:15:00.250000000","status":"A","#,
        r#""latitude":{"billionths":3090500000000,"hemisphere":"N","degrees":51.50833333333333},"#,
        r#""longitude":{"billionths":-6000000000,"hemisphere":"W","degrees":-0.1},"#,
        r#""mode":"A""#,
    );
    let speed = |decimal: String, unit: char, knots: &str| {
        let decimal = decimal.trim_end_matches('}');
        format!(r#""speed":{decimal},"unit":"{unit}","knots":{knots}}}"#)
    };
    let vtg = format!(
        r#"{},"course":{}"#,
        speed(decimal("0.0", 0, 1, "0.0"), 'N', "0.0"),
        decimal("360.0", 3600, 1, "360.0")
    );
    let kilometres = format!(
        r#"{},"course":{}"#,
        speed(decimal("10.20", 1020, 2, "10.2"), 'K', "5.5075593"),
        decimal("-0", 0, 0, "-0.0")
    );
    let minus = speed(decimal("-0", 0, 0, "-0.0"), 'K', "-0.0") + r#","course":null"#;
    let signs = format!(
        concat!(
            r#""time":null,"latitude":null,"longitude":null,"fix":"8","satellites":4294967295,"#,
            r#""hdop":{},"altitude":{},"geoid_separation":{}"#,
        ),
        decimal("-0", 0, 0, "-0.0"),
        decimal("-4.50", -450, 2, "-4.5"),
        decimal("-0.0", 0, 1, "-0.0")
    );
    let expected = [
        line("gga", 1, "GP", &gga),
        line("gll", 2, "GP", gll),
        line("vtg", 3, "GP", &vtg),
        line(
            "gga",
            4,
            "GN",
            concat!(
                r#""time":null,"latitude":null,"longitude":null,"fix":"0","satellites":null,"#,
                r#""hdop":null,"altitude":null,"geoid_separation":null"#,
            ),
        ),
        line(
            "gll",
            5,
            "GN",
            r#""time":null,"status":"V","latitude":null,"longitude":null,"mode":null"#,
        ),
        line("vtg", 6, "GN", r#""speed":null,"course":null"#),
        line("vtg", 7, "GP", &kilometres),
        line("vtg", 8, "GP", &minus),
        line("gga", 9, "GP", &signs),
        r#"{"kind":"totals","file":"-","lines":9,"blank":0,"accepted":9,"refused":0,"groups":0}"#
            .into(),
    ];
    assert_eq!(ran.out.lines().collect::<Vec<_>>(), expected);
    objects(&ran.out);
}

/// Minus zero is told by text and float, the side of a place by count and degrees.
#[test]
fn objects_with_signs() {
    let log = log_of(&[
        "GPRMC,,A,00-30,N,000-0,W,-0,-4.50,,-0,W",
        "GPRMC,,A,00-0,N,000-6,W,-0.0,0,,-20.3,W",
        "GPGSA,A,1,-1,-0,0",
    ]);
    let ran = run_on(&["--json"], &log);
    assert_eq!((ran.error.as_str(), ran.status), ("", Some(0)));
    let coordinate = |billionths: i64, letter: char, degrees: &str| {
        format!(r#"{{"billionths":{billionths},"hemisphere":"{letter}","degrees":{degrees}}}"#)
    };
    let keys = ["latitude", "longitude", "speed", "course", "variation"];
    let first = [
        coordinate(-30_000_000_000, 'N', "-0.5"),
        coordinate(0, 'W', "-0.0"),
        decimal("-0", 0, 0, "-0.0"),
        decimal("-4.50", -450, 2, "-4.5"),
        decimal("0", 0, 0, "0.0"),
    ];
    let second = [
        coordinate(0, 'N', "0.0"),
        coordinate(6_000_000_000, 'W', "0.1"),
        decimal("-0.0", 0, 1, "-0.0"),
        decimal("0", 0, 0, "0.0"),
        decimal("20.3", 203, 1, "20.3"),
    ];
    let third = [
        decimal("-1", -1, 0, "-1.0"),
        decimal("-0", 0, 0, "-0.0"),
        decimal("0", 0, 0, "0.0"),
    ];
    let lines: Vec<&str> = ran.out.lines().collect();
    let has = |line: usize, keys: &[&str], parts: &[String]| {
        for (key, part) in keys.iter().zip(parts) {
            let (line, expected) = (lines[line], format!(r#""{key}":{part}"#));
            assert!(line.contains(&expected), "no {expected}: {line}");
        }
    };
    has(0, &keys, &first);
    has(1, &keys, &second);
    has(2, &["pdop", "hdop", "vdop"], &third);
    objects(&ran.out);
}

#[test]
fn the_summary_as_an_object() {
    let ran = run_on(&["--json", "--summary"], &summed_up());
    let expected = concat!(
        r#"{"kind":"summary","types":{"GSA":6,"GSV":6,"RMC":1,"TXT":2},"#,
        r#""refusals":{"Syntax":2,"Checksum":1,"UnknownTalker":1},"#,
        r#""systems":{"GPS":{"gsv":4,"gsa":5,"groups":3},"GLONASS":{"gsv":2,"gsa":0,"groups":1}},"#,
        r#""gsv_in_no_group":1,"groups_with_fewer":1,"groups_with_more":1,"#,
        r#""after_checksum":4,"sentence_after_checksum":2}"#,
    );
    assert_eq!(ran.out.lines().last(), Some(expected));
    objects(&ran.out);
}

/// Whatever a log has, each line of the output is an object, and the groups are those of the plain gatherer.
#[test]
fn objects_of_damaged_logs() {
    let folder = Folder::new("objects");
    let mut random = Random::new(7);
    for round in 0..20 {
        let log = generated(&mut random, 20_000);
        let log = damaged(&mut random, log);
        let file = folder.file(format!("\"{round}\\\t\u{e9}"), &log);
        let ran = run(&["--json".as_ref(), file.as_path()]);
        let objects = objects(&ran.out);
        let shown = file.to_str().expect("UTF-8");
        let shown = shown.replace('\\', "\\\\").replace('\t', "\\t");
        let of_kind = |kind: &'static str| {
            let is_kind = move |object: &&Json| object.get("kind").text() == kind;
            objects.iter().filter(is_kind)
        };
        for object in &objects {
            assert_eq!(object.get("file").text(), shown);
        }
        let totals = of_kind("totals").next().expect("totals");
        let lines = objects.len() - 1 - of_kind("group").count();
        assert_eq!(totals.get("lines").number(), lines as f64);
        let refused = of_kind("refused").count();
        assert_eq!(totals.get("refused").number(), refused as f64);
        let groups: Vec<Vec<f64>> = of_kind("group")
            .map(|group| group.get("satellites").list().iter())
            .map(|list| list.map(|entry| entry.get("satellite").number()).collect())
            .collect();
        let plain: Vec<Vec<f64>> = gathered(&log)
            .iter()
            .map(|group| group.entries.iter())
            .map(|list| list.map(|entry| entry.satellite.into()).collect())
            .collect();
        assert_eq!(groups, plain);
    }
}

#[test]
fn objects_of_several_files() {
    let folder = Folder::new("several_objects");
    let log = folder.file("log", "x\n");
    let ran = run(&["--json".as_ref(), log.as_path(), log.as_path()]);
    let files: Vec<String> = objects(&ran.out)
        .iter()
        .filter(|object| object.get("kind").text() == "totals")
        .map(|object| match object.get("file") {
            Json::Null => "all".into(),
            file => file.text().into(),
        })
        .collect();
    let name = log.to_str().expect("UTF-8");
    assert_eq!(files, [name, name, "all"]);
}

// What is no log

#[test]
fn what_is_compressed_or_in_utf16() {
    let folder = Folder::new("other");
    let text = worked_log("\r\n");
    let wide = |order: fn(u16) -> [u8; 2]| text.encode_utf16().flat_map(order).collect::<Vec<u8>>();
    let (little, big) = (wide(u16::to_le_bytes), wide(u16::to_be_bytes));
    let marked = |mark: &[u8], text: &[u8]| [mark, text].concat();
    let files = [
        (
            b"\x1F\x8B\x08\0\0\0\0\0\0\x03\x4B\xE4\x02\0".to_vec(),
            "gzip -dc FILE | transfer",
        ),
        (
            marked(b"\xFF\xFE", &little),
            "iconv -f UTF-16 -t UTF-8 FILE",
        ),
        (marked(b"\xFE\xFF", &big), "iconv -f UTF-16 -t UTF-8 FILE"),
        (little.clone(), "iconv -f UTF-16LE -t UTF-8 FILE"),
        (big.clone(), "iconv -f UTF-16BE -t UTF-8 FILE"),
    ];
    for (bytes, advice) in files {
        let file = folder.file("other", &bytes);
        let log = folder.file("log", "");
        let ran = run(&[&file, &log]);
        let begin = format!("transfer: {}: it is ", file.display());
        assert!(ran.error.starts_with(&begin), "{}", ran.error);
        assert!(ran.error.contains(advice), "{}", ran.error);
        let name = log.display();
        assert_eq!(ran.out, format!("{name}: {NO_LINES}\ntotal: {NO_LINES}\n"));
        assert_eq!(ran.status, Some(1));
    }
    // Binary bytes of another kind, and too few to tell, are lines, and refused.
    for log in [&[0; 10][..], b"$\0G\0P\0", b"\x1F\n\x8B", b"\xFE"] {
        let ran = run_on(&[], log);
        assert!(ran.out.starts_with("-:1: refused "), "{}", ran.out);
        assert_eq!((ran.error.as_str(), ran.status), ("", Some(0)));
    }
}

#[test]
fn a_byte_order_mark_is_told() {
    let log = format!("\u{FEFF}{GSV_1}\n{GSV_2}\n");
    let ran = run_on(&[], log.as_bytes());
    let expected = "-:1: refused 2 NotAscii\nlines 2 blank 0 accepted 1 refused 1 groups 0\n";
    assert_eq!((ran.out.as_str(), ran.status), (expected, Some(0)));
    let why = "it begins with a UTF-8 byte order mark, for which its first line is refused";
    assert_eq!(ran.error, format!("transfer: -: {why}\n"));
}

// Names

#[test]
fn a_name_that_starts_as_an_option() {
    let folder = Folder::new("dashes");
    folder.file("--help", worked_log("\n"));
    let output = transfer()
        .args(["--", "--help"])
        .current_dir(&folder.0)
        .output()
        .expect("transfer runs");
    let expected =
        format!("--help:5: refused 6 Checksum (calculated 32, found 33)\n{WORKED_TOTALS}\n");
    assert_eq!(String::from_utf8_lossy(&output.stdout), expected);
}

#[cfg(target_os = "linux")]
#[test]
fn names_are_shown_on_one_line() {
    use std::os::unix::ffi::OsStrExt;

    let folder = Folder::new("names");
    let names: [(&[u8], &str); 5] = [
        (b"log\xFF", "log\\xff"),
        (b"two\nlines", "two\\nlines"),
        (b"\x1B[2J", "\\u{1b}[2J"),
        (
            b"back\\slash 'and' \"quotes\"",
            "back\\\\slash 'and' \"quotes\"",
        ),
        ("\u{e9}\u{202e}".as_bytes(), "\u{e9}\\u{202e}"),
    ];
    for (name, shown) in names {
        let log = folder.file(OsStr::from_bytes(name), "x");
        let ran = run(&[&log]);
        assert_eq!(ran.status, Some(0));
        let folder = folder.0.display();
        let first = ran.out.lines().next().expect("a line");
        assert_eq!(first, format!("{folder}/{shown}:1: refused 4 Syntax"));
        fs::remove_file(&log).unwrap();
        let ran = run(&[&log]);
        let begin = format!("transfer: {folder}/{shown}: ");
        assert!(ran.error.starts_with(&begin), "{}", ran.error);
        assert_eq!(ran.error.lines().count(), 1);
    }
}

// Standard input and output

#[test]
fn a_closed_output_ends_it_quietly() {
    let folder = Folder::new("closed");
    let log = folder.file("log", "x\n".repeat(100_000));
    let mut child = transfer()
        .arg(&log)
        .stdout(Stdio::piped())
        .stderr(Stdio::piped())
        .spawn()
        .expect("transfer starts");
    drop(child.stdout.take());
    let output = child.wait_with_output().expect("transfer ends");
    assert_eq!(String::from_utf8_lossy(&output.stderr), "");
    assert_eq!(output.status.code(), Some(0));
}

#[cfg(target_os = "linux")]
#[test]
fn an_output_that_is_full_is_told() {
    let folder = Folder::new("full");
    let log = folder.file("log", "x\n");
    let full = File::options().write(true).open("/dev/full").unwrap();
    for word in [log.as_os_str(), "--help".as_ref()] {
        let full = full.try_clone().unwrap();
        let output = transfer().arg(word).stdout(full).output().unwrap();
        let error = String::from_utf8_lossy(&output.stderr);
        assert!(error.starts_with("transfer: standard output: "), "{error}");
        assert_eq!(output.status.code(), Some(1));
    }
}

/// The reader of the output is gone: that ends a run on a pipe at the next line that is printed.
#[test]
fn a_closed_output_ends_a_pipe() {
    let mut child = piped(&[]);
    drop(child.stdout.take());
    let mut input = child.stdin.take().expect("a pipe");
    input.write_all(b"x\n").expect("transfer reads");
    // The pipe stays open, and so nothing but the output ends it.
    let status = child.wait().expect("transfer ends");
    assert_eq!(status.code(), Some(0));
}

#[cfg(target_os = "linux")]
#[test]
fn an_output_that_was_closed_is_told() {
    let folder = Folder::new("no_output");
    let log = folder.file("log", "x\n");
    for line in [
        r#""$0" "$1" >&-"#,
        r#""$0" --json "$1" >&- <&-"#,
        r#""$0" --help >&-"#,
    ] {
        let ran = shell(line, &[&log]);
        assert_eq!(ran.error, "transfer: standard output: it is closed\n");
        assert_eq!(ran.status, Some(1));
    }
    for line in [
        r#""$0" "$1" >/dev/null"#,
        r#""$0" "$1" 1<>/dev/null"#,
        r#""$0" "$1" 2>&-"#,
    ] {
        assert_eq!(shell(line, &[&log]).status, Some(0), "{line}");
    }
}

#[cfg(target_os = "linux")]
#[test]
fn an_input_that_was_closed_is_told() {
    let ran = shell(r#""$0" <&-"#, &[]);
    assert_eq!(ran.error, "transfer: -: standard input is closed\n");
    assert_eq!((ran.out.as_str(), ran.status), ("", Some(1)));
}

/// Also where it is full before a read, while the input waits.
#[cfg(target_os = "linux")]
#[test]
fn an_output_that_is_full_ends_a_pipe() {
    let full = File::options().write(true).open("/dev/full").unwrap();
    let mut child = Command::new("timeout")
        .args(["20", env!("CARGO_BIN_EXE_transfer")])
        .stdin(Stdio::piped())
        .stdout(full)
        .stderr(Stdio::piped())
        .spawn()
        .expect("transfer starts");
    let mut input = child.stdin.take().expect("a pipe");
    input.write_all(b"x\n").expect("transfer reads");
    let ran = ran(child);
    assert!(
        ran.error.starts_with("transfer: standard output: "),
        "{}",
        ran.error
    );
    assert_eq!(ran.status, Some(1));
    drop(input);
}

#[test]
fn corpus_logs_as_the_walk_counts_them() {
    let mut total = Totals::default();
    let mut expected = vec![];
    let logs: Vec<PathBuf> = corpus()
        .into_iter()
        .filter(|path| {
            let log = fs::read(path).expect("a log of the corpus");
            let Ok(totals) = walk(&log) else {
                return false;
            };
            total += totals;
            expected.push(format!("{}: {totals}", path.display()));
            true
        })
        .collect();
    // One file would have no name before its totals.
    if logs.len() < 2 {
        println!("no corpus is beside the repository: nothing to read");
        return;
    }
    expected.push(format!("total: {total}"));
    let ran = run(&logs);
    let printed: Vec<&str> = ran
        .out
        .lines()
        .filter(|line| line.contains(": lines "))
        .collect();
    assert_eq!(printed, expected);
    let refused = ran.out.lines().count() - printed.len();
    assert_eq!(refused as u64, total.refused);
}
