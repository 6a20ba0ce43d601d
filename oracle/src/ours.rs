use std::{
    io::{self, Read, Write},
    process::Stdio,
    thread,
};

use crate::{
    lines::{Batch, BLOCK},
    program::Program,
    words::WORDS,
    Words,
};

/// The longest line that the program takes.
pub const LONGEST_FRAME: usize = 4096;

/// The bytes of one answer.
const ANSWER_BYTES: usize = 8 * WORDS;

/// Our proved reader.
#[derive(Clone, Debug)]
pub enum Ours {
    /// A function of this process.
    Called(fn(&[u8]) -> Words),
    /// The program `answers`: it reads lines from its standard input, each
    /// after its length in two bytes, the low one first, and writes the words
    /// of docs/ABI.md for each.
    Piped(Piped),
}

/// How the program is run.
#[derive(Clone, Debug)]
pub struct Piped(Program);

impl Ours {
    /// The reader in this process, where it can be linked. A program is asked
    /// instead if the environment names one, and elsewhere.
    pub fn find() -> Result<Self, String> {
        #[cfg(target_arch = "x86_64")]
        if std::env::var_os("NMEA_ANSWERS").is_none() {
            return Ok(Ours::Called(linked));
        }
        Ours::piped()
    }

    /// The program, or what is missing of it.
    pub fn piped() -> Result<Self, String> {
        Program::find("answers").map(|program| Ours::Piped(Piped(program)))
    }

    /// How many lines are asked at once: a multiple of a block of generated lines.
    /// A program is started for each batch, which takes as long as some thousand
    /// answers.
    pub(crate) fn batch(&self) -> u64 {
        match self {
            Ours::Called(_) => BLOCK,
            Ours::Piped(_) => 20 * BLOCK,
        }
    }

    /// Our answers to some lines.
    pub fn answers(&self, lines: &Batch) -> io::Result<Vec<Words>> {
        match self {
            Ours::Called(answer) => Ok(lines.lines().map(answer).collect()),
            Ours::Piped(program) => program.answers(lines),
        }
    }
}

/// The answer of the reader that is linked into this process. Line and words
/// stand on the heap alone, so that a memory checker sees what is read or
/// written beyond them.
#[cfg(target_arch = "x86_64")]
pub fn linked(line: &[u8]) -> Words {
    let line: Box<[u8]> = line.into();
    // A word that is left as it was is found, as no answer has one like it.
    let mut words = Box::new([u64::MAX; WORDS]);
    let wrote = proved_nmea::abi::answer(&line, words.as_mut_slice());
    assert_eq!(wrote, crate::DONE, "40 words are enough for every answer");
    *words
}

/// Has the linked reader make a table fresh. What it answers.
#[cfg(target_arch = "x86_64")]
pub fn linked_fresh(table: &mut [u32]) -> u32 {
    proved_nmea::abi::fresh(table)
}

/// Has the linked reader take a line, with these words to write and this
/// table. What it answers. The line stands on the heap alone.
#[cfg(target_arch = "x86_64")]
pub fn linked_gather(line: &[u8], words: &mut [u64], table: &mut [u32]) -> u32 {
    let lent: Box<[u8]> = line.into();
    let answer = proved_nmea::abi::gather(&lent, words, table);
    assert_eq!(*lent, *line, "the line was written");
    answer
}

/// Has the linked reader read a row of a table into these words. What it
/// answers.
#[cfg(target_arch = "x86_64")]
pub fn linked_row(table: &[u32], row: usize, words: &mut [u64]) -> u32 {
    proved_nmea::abi::row(table, row, words)
}

impl Piped {
    /// Each batch is a run of its own to the end of its input, so that nothing
    /// hangs on how the program buffers.
    fn answers(&self, lines: &Batch) -> io::Result<Vec<Words>> {
        let Piped(program) = self;
        let frames = frames(lines)?;
        let mut child = program
            .command()
            .stdin(Stdio::piped())
            .stdout(Stdio::piped())
            .spawn()
            .map_err(|error| {
                let message = format!("{program} does not start: {error}");
                io::Error::new(error.kind(), message)
            })?;
        let mut input = child.stdin.take().expect("its input is a pipe");
        let mut output = child.stdout.take().expect("its output is a pipe");

        let mut bytes = Vec::with_capacity(lines.len() * ANSWER_BYTES);
        let read = thread::scope(|scope| {
            // Both pipes are served at once, or each side could wait for the other.
            // A write that fails is not told: the answers then come short.
            scope.spawn(move || input.write_all(&frames).ok());
            output.read_to_end(&mut bytes)
        });
        let status = child.wait()?;
        read?;

        let answered = bytes.len() / ANSWER_BYTES;
        if !status.success() || bytes.len() != lines.len() * ANSWER_BYTES {
            let next = lines.lines().nth(answered).map_or(String::new(), |line| {
                format!("; the next line is \"{}\"", line.escape_ascii())
            });
            return Err(io::Error::other(format!(
                "the program wrote {} bytes, {answered} answers to {} lines, and ended with {status}{next}",
                bytes.len(),
                lines.len(),
            )));
        }
        Ok(bytes.chunks_exact(ANSWER_BYTES).map(words).collect())
    }
}

fn frames(lines: &Batch) -> io::Result<Vec<u8>> {
    let mut frames = vec![];
    for line in lines.lines() {
        if line.len() > LONGEST_FRAME {
            let message = format!("a line of {} bytes fits no frame", line.len());
            return Err(io::Error::new(io::ErrorKind::InvalidInput, message));
        }
        frames.extend_from_slice(&(line.len() as u16).to_le_bytes());
        frames.extend_from_slice(line);
    }
    Ok(frames)
}

fn words(answer: &[u8]) -> Words {
    let mut words = [0; WORDS];
    for (word, bytes) in words.iter_mut().zip(answer.chunks_exact(8)) {
        *word = u64::from_le_bytes(bytes.try_into().expect("eight bytes"));
    }
    words
}
