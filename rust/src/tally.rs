use std::fmt;

use crate::{
    abi::{self, GROUP, NO_GSV, TABLE, WAITS, WORDS},
    places::{GGA, GLL, GSA, GSV, GSV_NUMBER, GSV_SYSTEM, KIND, OTHER, REFUSED, RMC, VTG},
    sentence,
    words::{proved, Unfit, Words},
    Group, Refusal, Sentence, Totals,
};

/// Takes a log of any size, line by line: each line's answer, and the group of
/// satellites that it completes, from proved code. A [`crate::Reader`] cuts a
/// log into its lines and gives them to one of these.
///
/// ```
/// use proved_nmea::{walk, Answer, Tally};
///
/// let log = b"$GPGSA,A,1,,,,*32\r\n\r\n$GPGSV,1,1,00,*55\r\nnonsense";
/// let mut tally = Tally::new();
/// for line in log.split_inclusive(|&byte| byte == b'\n') {
///     let line = tally.add(line);
///     if let Answer::Refused(refusal) = line.answer() {
///         assert_eq!((line.number(), refusal.to_string()), (4, "refused 4 Syntax".into()));
///     }
///     if let Some(group) = line.group() {
///         assert_eq!((group.in_view, group.lines), (0, vec![3]));
///     }
/// }
/// assert_eq!(tally.totals().to_string(), "lines 4 blank 1 accepted 2 refused 1 groups 1");
/// assert_eq!(Ok(tally.totals()), walk(log));
/// ```
#[derive(Clone)]
pub struct Tally {
    totals: Totals,
    /// The answer to the last line that was not blank.
    words: [u64; WORDS],
    table: [u32; TABLE],
    /// For each row, the numbers of the lines of its run.
    lines: [[u64; Group::SENTENCES]; abi::ROWS],
}

/// A line of a log that was taken, and its answer. What it says is made of the
/// answer's words when it is asked for, and not before.
#[derive(Clone, Copy)]
pub struct Line<'a> {
    bytes: &'a [u8],
    kind: Kind,
    /// What the table answered: [`abi::gather`].
    gathered: u32,
    tally: &'a Tally,
}

/// What a line is.
#[derive(Clone, Copy, Debug, PartialEq, Eq, PartialOrd, Ord, Hash)]
#[non_exhaustive]
pub enum Kind {
    /// Nothing but its end.
    Blank,
    /// An RMC sentence.
    Rmc,
    /// A GSA sentence.
    Gsa,
    /// A GSV sentence.
    Gsv,
    /// A right sentence of a known type that is not read.
    Other,
    /// Refused.
    Refused,
    /// A GGA sentence.
    Gga,
    /// A GLL sentence.
    Gll,
    /// A VTG sentence.
    Vtg,
}

/// What a line says.
#[derive(Clone, Debug, PartialEq, Eq, Hash)]
pub enum Answer {
    /// The line has nothing but its end.
    Blank,
    /// It is accepted.
    Sentence(Sentence),
    /// It is refused.
    Refused(Refusal),
}

impl Tally {
    /// A tally at the start of a log.
    pub fn new() -> Self {
        let mut table = [0; TABLE];
        abi::fresh(&mut table);
        Tally {
            totals: Totals::default(),
            words: [0; WORDS],
            table,
            lines: Default::default(),
        }
    }

    /// The totals of the lines so far.
    pub fn totals(&self) -> Totals {
        self.totals
    }

    /// Takes the log's next line, given up to and with its line feed if it has one.
    ///
    /// # Panics
    ///
    /// On no line, as [`crate::read`].
    pub fn add<'a>(&'a mut self, line: &'a [u8]) -> Line<'a> {
        let bytes = without_end(line);
        self.totals.lines += 1;
        if bytes.is_empty() {
            self.totals.blank += 1;
            return self.line(bytes, Kind::Blank, NO_GSV);
        }
        let gathered = abi::gather(bytes, &mut self.words, &mut self.table);
        let kind = proved(self.kind());
        match kind {
            Kind::Refused => self.totals.refused += 1,
            _ => self.totals.accepted += 1,
        }
        if gathered >= WAITS {
            proved(self.place());
        }
        self.totals.groups += u64::from(gathered >= GROUP);
        self.line(bytes, kind, gathered)
    }

    fn line<'a>(&'a self, bytes: &'a [u8], kind: Kind, gathered: u32) -> Line<'a> {
        Line {
            bytes,
            kind,
            gathered,
            tally: self,
        }
    }

    /// What the answer is.
    fn kind(&self) -> Result<Kind, Unfit> {
        let words = Words(&self.words);
        Ok(match words.word(KIND)? {
            RMC => Kind::Rmc,
            GSA => Kind::Gsa,
            GSV => Kind::Gsv,
            OTHER => Kind::Other,
            REFUSED => Kind::Refused,
            GGA => Kind::Gga,
            GLL => Kind::Gll,
            VTG => Kind::Vtg,
            _ => return Err(words.unfit(KIND)),
        })
    }

    /// Keeps the number of the line whose sentence is the last of its row's run.
    fn place(&mut self) -> Result<(), Unfit> {
        let words = Words(&self.words);
        let system: usize = words.number(GSV_SYSTEM)?;
        let number: usize = words.number(GSV_NUMBER)?;
        let row = self.lines.get_mut(system.wrapping_sub(1));
        let place = row.and_then(|row| row.get_mut(number.wrapping_sub(1)));
        *place.ok_or_else(|| words.unfit(GSV_NUMBER))? = self.totals.lines;
        Ok(())
    }
}

impl Default for Tally {
    fn default() -> Self {
        Tally::new()
    }
}

/// The totals so far, without the words of the table.
impl fmt::Debug for Tally {
    fn fmt(&self, f: &mut fmt::Formatter) -> fmt::Result {
        let mut shown = f.debug_struct("Tally");
        shown.field("totals", &self.totals).finish_non_exhaustive()
    }
}

impl<'a> Line<'a> {
    /// Its number in the log, from 1 on.
    pub fn number(&self) -> u64 {
        self.tally.totals.lines
    }

    /// Its bytes, without its end.
    pub fn bytes(&self) -> &'a [u8] {
        self.bytes
    }

    /// What it is. This costs nothing.
    pub fn kind(&self) -> Kind {
        self.kind
    }

    /// What it says.
    pub fn answer(&self) -> Answer {
        match self.kind {
            Kind::Blank => Answer::Blank,
            _ => match proved(sentence::answer(&Words(&self.tally.words))) {
                Ok(sentence) => Answer::Sentence(sentence),
                Err(refusal) => Answer::Refused(refusal),
            },
        }
    }

    /// Why it is refused, if it is.
    pub fn refusal(&self) -> Option<Refusal> {
        match self.kind {
            Kind::Refused => Some(proved(Refusal::of(&Words(&self.tally.words)))),
            _ => None,
        }
    }

    /// Whether it completes a group. This costs nothing.
    pub fn has_group(&self) -> bool {
        self.gathered >= GROUP
    }

    /// The group that it completes.
    pub fn group(&self) -> Option<Group> {
        let row = self.gathered.checked_sub(GROUP)? as usize;
        let lines = self.tally.lines.get(row).map_or(&[][..], |row| row);
        Some(proved(Group::of(&self.tally.table, row, lines)))
    }
}

/// The line's number, its bytes as text, and what it says.
impl fmt::Debug for Line<'_> {
    fn fmt(&self, f: &mut fmt::Formatter) -> fmt::Result {
        f.debug_struct("Line")
            .field("number", &self.number())
            .field("bytes", &format_args!("\"{}\"", self.bytes.escape_ascii()))
            .field("answer", &self.answer())
            .field("group", &self.group())
            .finish()
    }
}

/// The line without its line feed, and without one carriage return before it
/// or at the end of the log.
fn without_end(line: &[u8]) -> &[u8] {
    let line = line.strip_suffix(b"\n").unwrap_or(line);
    line.strip_suffix(b"\r").unwrap_or(line)
}
