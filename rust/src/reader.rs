use std::{
    error::Error,
    fmt,
    io::{self, BufRead, ErrorKind},
    mem,
};

use crate::{Line, Tally, Totals};

/// Reads a log of any size, line by line.
///
/// A line ends at a line feed or where the log does; one carriage return before
/// that end is dropped, and an empty last stretch is no line. What comes for
/// each line is lent, so that none costs memory: its number, its answer, and
/// the group of satellites that it completes.
///
/// ```
/// use proved_nmea::{Answer, Reader, Sentence};
///
/// let log = b"$GPGSV,2,1,05,01,,,,02,,,,03,,,,04,,,*7B\n$GPGSV,2,2,05,05,,,*79\n";
/// let mut reader = Reader::new(&log[..]); // or a BufReader over a File
/// while let Some(line) = reader.next_line()? {
///     match line.answer() {
///         Answer::Sentence(Sentence::Rmc(fix)) => println!("{:?}", fix.position),
///         Answer::Refused(refusal) => println!("{}: {refusal}", line.number()),
///         _ => {}
///     }
///     if let Some(group) = line.group() {
///         assert_eq!((group.in_view, group.lines), (5, vec![1, 2]));
///     }
/// }
/// assert_eq!(reader.totals().to_string(), "lines 2 blank 0 accepted 2 refused 0 groups 1");
/// # Ok::<(), proved_nmea::ReadError>(())
/// ```
pub struct Reader<R> {
    input: R,
    tally: Tally,
    /// A line that does not lie whole in the input's buffer, as far as it has come.
    held: Vec<u8>,
    /// What of the input's buffer, or of `held`, is lent as the last line.
    lent: Lent,
}

enum Lent {
    Nothing,
    Buffered(usize),
    Held,
}

/// What ended the reading of a log, and where.
#[derive(Debug)]
#[non_exhaustive]
pub struct ReadError {
    /// The number of the line that could not be read to its end. All before it were.
    pub line: u64,
    /// The input's own error; of kind [`ErrorKind::InvalidData`] for a line over [`LONGEST_LINE`].
    pub error: io::Error,
}

/// The longest line that is kept in memory, with its end, to be answered as it
/// is. A line of more is no line of a receiver's, and what has it is no log.
pub const LONGEST_LINE: usize = 64 << 20;

impl<R: BufRead> Reader<R> {
    /// A reader at the start of a log.
    pub fn new(input: R) -> Self {
        Reader {
            input,
            tally: Tally::new(),
            held: vec![],
            lent: Lent::Nothing,
        }
    }

    /// Reads the next line; none at the end of the log.
    ///
    /// # Errors
    ///
    /// Those of the input, but for [`ErrorKind::Interrupted`]. Nothing is lost by one: the next
    /// call goes on where the input failed, also within a line. A line over [`LONGEST_LINE`] is
    /// told again by each call.
    ///
    /// # Panics
    ///
    /// On no bytes, as [`crate::read`].
    pub fn next_line(&mut self) -> Result<Option<Line<'_>>, ReadError> {
        self.take_back();
        let length = match self.cut() {
            Ok(length) => length,
            Err(error) => return Err(self.error(error)),
        };
        if !self.held.is_empty() {
            self.lent = Lent::Held;
            return Ok(Some(self.tally.add(&self.held)));
        }
        if length == 0 {
            return Ok(None);
        }
        let line = self.totals().lines + 1;
        // Nothing of it is consumed yet: the bytes that were looked at come again.
        match self.input.fill_buf().map(|bytes| bytes.get(..length)) {
            Ok(Some(bytes)) => {
                self.lent = Lent::Buffered(length);
                Ok(Some(self.tally.add(bytes)))
            }
            Ok(None) => {
                let error = io::Error::new(ErrorKind::InvalidData, "the input's buffer has shrunk");
                Err(ReadError { line, error })
            }
            Err(error) => Err(ReadError { line, error }),
        }
    }

    /// The totals of the lines so far.
    pub fn totals(&self) -> Totals {
        self.tally.totals()
    }

    /// The input, behind the last line. What had come of the next one is lost.
    pub fn into_inner(mut self) -> R {
        self.take_back();
        self.input
    }

    /// Ends the lending of the last line.
    fn take_back(&mut self) {
        match mem::replace(&mut self.lent, Lent::Nothing) {
            Lent::Nothing => {}
            Lent::Buffered(length) => self.input.consume(length),
            Lent::Held => self.held.clear(),
        }
    }

    /// Looks for the end of the next line: how many bytes of the input's buffer it has if it
    /// lies there whole, else 0, and it is held; both are empty at the end of the log.
    fn cut(&mut self) -> io::Result<usize> {
        loop {
            let bytes = match self.input.fill_buf() {
                Ok(bytes) => bytes,
                Err(error) if error.kind() == ErrorKind::Interrupted => continue,
                Err(error) => return Err(error),
            };
            let end = line_feed(bytes);
            let length = end.map_or(bytes.len(), |end| end + 1);
            if self.held.len() + length > LONGEST_LINE {
                let why = format!(
                    "a line of more than {} MiB, which no log has",
                    LONGEST_LINE >> 20
                );
                return Err(io::Error::new(ErrorKind::InvalidData, why));
            }
            if end.is_some() && self.held.is_empty() {
                return Ok(length);
            }
            self.held.extend_from_slice(&bytes[..length]);
            self.input.consume(length);
            if end.is_some() || length == 0 {
                return Ok(0);
            }
        }
    }

    fn error(&self, error: io::Error) -> ReadError {
        let line = self.totals().lines + 1;
        ReadError { line, error }
    }
}

/// Where the first line feed stands. Stretches without one are passed by a fold that no byte
/// ends early, which is compiled to take many bytes at a time.
fn line_feed(bytes: &[u8]) -> Option<usize> {
    const STRETCH: usize = 32;
    let is_without = |stretch: &&[u8]| {
        !stretch
            .iter()
            .fold(false, |has, &byte| has | (byte == b'\n'))
    };
    let passed = STRETCH * bytes.chunks_exact(STRETCH).take_while(is_without).count();
    let at = bytes[passed..].iter().position(|&byte| byte == b'\n')?;
    Some(passed + at)
}

impl<R> fmt::Debug for Reader<R> {
    fn fmt(&self, f: &mut fmt::Formatter) -> fmt::Result {
        let mut shown = f.debug_struct("Reader");
        shown.field("tally", &self.tally).finish_non_exhaustive()
    }
}

/// As in `line 6: Input/output error (os error 5)`.
impl fmt::Display for ReadError {
    fn fmt(&self, f: &mut fmt::Formatter) -> fmt::Result {
        write!(f, "line {}: {}", self.line, self.error)
    }
}

impl Error for ReadError {
    fn source(&self) -> Option<&(dyn Error + 'static)> {
        Some(&self.error)
    }
}

/// The input's own error; the line's number is lost.
impl From<ReadError> for io::Error {
    fn from(error: ReadError) -> Self {
        error.error
    }
}
