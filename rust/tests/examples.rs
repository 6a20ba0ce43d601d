//! The programs of `examples/`, which `cargo test` builds.

use std::{fs, path::Path, process::Command};

/// What an example prints of a log.
fn prints(name: &str, log: &str) -> String {
    let file = Path::new(env!("CARGO_TARGET_TMPDIR")).join(format!("{name}.log"));
    fs::write(&file, log).expect("a file for the test");
    let built = Path::new(env!("CARGO_BIN_EXE_transfer")).with_file_name("examples");
    let output = Command::new(built.join(name)).arg(&file).output();
    let output = output.expect("cargo test without --test builds the examples");
    assert!(output.status.success());
    String::from_utf8(output.stdout).expect("text")
}

#[test]
fn groups() {
    let log = "$GPGSV,2,1,05,11,11,101,30,12,21,111,31,13,31,121,32,14,41,131,33*7F\n\
               $GPGSV,2,2,05,05,50,140,*49\n";
    let expected = "lines [1, 2]: GPS, 5 in view: 11 at 30 dB-Hz, 12 at 31 dB-Hz, \
                    13 at 32 dB-Hz, 14 at 33 dB-Hz, 5 not tracked\n";
    assert_eq!(prints("groups", log), expected);
}

#[test]
fn positions() {
    let log = "$GNRMC,101500.25,A,5130.5,N,00006.0,W,4.5,270.0,290224,,,A*5F\n\
               $GNRMC,,A,,,,,,,,,*38\n\
               $GNRMC,101501,A,00-30,N,000-6,W,-0,,290224,,*32\n";
    let expected = "1709201700.250000000 3090.500000000 -6.000000000 4.5\n\
                    1709201701.000000000 -30.000000000 6.000000000 -0\n";
    assert_eq!(prints("positions", log), expected);
}
