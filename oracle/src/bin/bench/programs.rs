//! Whole programs, each started and timed to its end: `transfer`, and one that
//! reads the same log with the crate.

use std::{
    env,
    error::Error,
    fs::{self, File},
    io::Write,
    os::fd::AsRawFd,
    path::{Path, PathBuf},
    process::{self, Command, Stdio},
};

/// The bytes of the log, or a line more.
const LENGTH: usize = 30_000_000;

/// The two programs and the log that both are given.
pub struct Programs {
    transfer: PathBuf,
    plain: PathBuf,
    log: PathBuf,
    /// Keeps the log.
    _open: File,
    pub lines: usize,
    pub bytes: usize,
}

impl Programs {
    /// The programs, with a log of the lines repeated.
    pub fn over(logs: &[Vec<u8>]) -> Result<Self, Box<dyn Error>> {
        let transfer =
            Path::new(env!("CARGO_MANIFEST_DIR")).join("../target/cargo/release/transfer");
        let plain = env::current_exe()?.with_file_name("plain");
        for program in [&transfer, &plain] {
            if !program.is_file() {
                let name = program.display();
                return Err(format!("{name} is not there: oracle/bench builds it").into());
            }
        }
        let name = format!("nmea-bench-{}.nmea", process::id());
        let create = |path: &Path| {
            let mut options = File::options();
            options.read(true).write(true).create_new(true).open(path)
        };
        // In memory, where there is such a folder, else beside the programs.
        let in_memory = Path::new("/dev/shm").join(&name);
        let (path, mut open) = match create(&in_memory) {
            Ok(open) => (in_memory, open),
            Err(_) => {
                let path = plain.with_file_name(&name);
                let open = create(&path)?;
                (path, open)
            }
        };
        // Its name goes at once, so that nothing is left however this ends.
        fs::remove_file(&path)?;
        let (mut lines, mut bytes) = (0, 0);
        for log in logs.iter().cycle() {
            if bytes >= LENGTH {
                break;
            }
            // A log may end within a line, which the next one may not go on with.
            let end: &[u8] = if log.ends_with(b"\n") { b"" } else { b"\n" };
            for part in [log, end] {
                open.write_all(part)?;
                lines += part.iter().filter(|&&byte| byte == b'\n').count();
                bytes += part.len();
            }
        }
        let log = PathBuf::from(format!("/proc/{}/fd/{}", process::id(), open.as_raw_fd()));
        let programs = Programs {
            transfer,
            plain,
            log,
            _open: open,
            lines,
            bytes,
        };
        programs.agree()?;
        Ok(programs)
    }

    /// Both programs read every line of the log.
    fn agree(&self) -> Result<(), Box<dyn Error>> {
        let expected = format!("lines {} ", self.lines);
        for program in [&self.transfer, &self.plain] {
            let output = Command::new(program).arg(&self.log).output()?;
            let printed = String::from_utf8_lossy(&output.stdout);
            let last = printed.lines().last().unwrap_or_default();
            if !output.status.success() || !last.starts_with(&expected) {
                let name = program.display();
                return Err(
                    format!("{name}: expected \"{expected}..\", printed \"{last}\"").into(),
                );
            }
        }
        Ok(())
    }

    pub fn transfer(&self) {
        self.run(&self.transfer);
    }

    pub fn plain(&self) {
        self.run(&self.plain);
    }

    fn run(&self, program: &Path) {
        let status = Command::new(program)
            .arg(&self.log)
            .stdout(Stdio::null())
            .status()
            .expect("a program that ran before");
        assert!(status.success(), "{}: {status}", program.display());
    }
}
