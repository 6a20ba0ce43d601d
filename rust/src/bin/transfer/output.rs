//! Standard output and standard error.

use std::{
    fmt,
    io::{self, BufWriter, IsTerminal, StdoutLock, Write},
    time::{Duration, Instant},
};

/// Input above this many bytes takes long enough for progress to be shown.
const LARGE: u64 = 64 << 20;

/// The time from one showing of progress to the next.
const PAUSE: Duration = Duration::from_millis(300);

/// Says something on standard error, if anybody hears it.
pub fn tell(what: &str) {
    let _ = writeln!(io::stderr(), "transfer: {}", what.trim_end());
}

/// Standard output, and the progress that stands beside it.
pub struct Output {
    writer: BufWriter<StdoutLock<'static>>,
    /// Whether it is a terminal, where progress may stand in its way.
    is_terminal: bool,
    pub progress: Progress,
    /// What went wrong before a read, which that read cannot tell as its own.
    failed: Option<io::Error>,
}

impl Output {
    /// For a run over input of so many bytes, as far as its size is known.
    pub fn new(size: u64) -> Self {
        let out = io::stdout().lock();
        Output {
            is_terminal: out.is_terminal(),
            writer: BufWriter::with_capacity(1 << 16, out),
            progress: Progress::over(size),
            failed: None,
        }
    }

    pub fn print(&mut self, line: fmt::Arguments) -> io::Result<()> {
        if self.is_terminal {
            self.progress.clear();
        }
        self.writer.write_fmt(line)?;
        self.writer.write_all(b"\n")
    }

    pub fn flush(&mut self) -> io::Result<()> {
        self.writer.flush()
    }

    /// Shows what there is, since the read may wait. An error is kept for [`Output::failure`].
    pub fn before_read(&mut self) -> io::Result<()> {
        if let Err(error) = self.flush() {
            let kind = error.kind();
            self.failed = Some(error);
            return Err(kind.into());
        }
        if self.progress.is_due() {
            self.progress.show();
        }
        Ok(())
    }

    /// What went wrong with the output before a read, if anything did.
    pub fn failure(&mut self) -> io::Result<()> {
        self.failed.take().map_or(Ok(()), Err)
    }

    /// Says something on standard error, behind what is printed so far.
    pub fn tell(&mut self, what: &str) -> io::Result<()> {
        self.flush()?;
        self.progress.clear();
        tell(what);
        Ok(())
    }
}

/// How far the run has come, on standard error if that is a terminal and the
/// input is large.
pub struct Progress {
    is_wanted: bool,
    /// The bytes of all files, as far as their sizes are known.
    size: u64,
    /// The bytes read.
    read: u64,
    shown: Instant,
    /// Whether it stands on the terminal now.
    stands: bool,
}

impl Progress {
    fn over(size: u64) -> Self {
        Progress {
            is_wanted: io::stderr().is_terminal(),
            size,
            read: 0,
            shown: Instant::now(),
            stands: false,
        }
    }

    /// Counts so many bytes more.
    pub fn count(&mut self, more: usize) {
        self.read += more as u64;
    }

    fn is_due(&self) -> bool {
        self.is_wanted && self.size.max(self.read) > LARGE && self.shown.elapsed() >= PAUSE
    }

    fn show(&mut self) {
        self.shown = Instant::now();
        self.stands = true;
        let read = self.read >> 20;
        let _ = match self.size >> 20 {
            size if size < read => write!(io::stderr(), "\r\x1b[K{read} MiB"),
            size => write!(io::stderr(), "\r\x1b[K{read} of {size} MiB"),
        };
    }

    /// Takes it off, so that other text does not run into it.
    pub fn clear(&mut self) {
        if self.stands {
            self.stands = false;
            let _ = write!(io::stderr(), "\r\x1b[K");
        }
    }
}
