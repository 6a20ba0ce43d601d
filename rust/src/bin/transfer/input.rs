//! Where logs come from, and what is told of those that are none.

use std::{
    cell::RefCell,
    fmt::{self, Write},
    fs::{self, File},
    io::{self, Read},
    path::PathBuf,
};

use crate::output::Output;

/// Where a log comes from.
pub enum Input {
    Standard,
    File(PathBuf),
}

impl Input {
    pub fn open(&self) -> io::Result<Box<dyn Read>> {
        Ok(match self {
            Input::Standard => Box::new(io::stdin().lock()),
            Input::File(path) => Box::new(File::open(path)?),
        })
    }

    /// Its bytes, as far as they are known before it is read.
    pub fn size(&self) -> u64 {
        match self {
            // A pipe has no size, and what is wrong with a file is told when it is opened.
            Input::Standard => 0,
            Input::File(path) => fs::metadata(path).map_or(0, |about| about.len()),
        }
    }
}

/// The name, in which backslashes are doubled, and bytes that are not UTF-8 and
/// characters that cannot be shown are escaped: a name is one word on one line.
impl fmt::Display for Input {
    fn fmt(&self, f: &mut fmt::Formatter) -> fmt::Result {
        let Input::File(path) = self else {
            return f.write_char('-');
        };
        for chunk in path.as_os_str().as_encoded_bytes().utf8_chunks() {
            for letter in chunk.valid().chars() {
                match letter {
                    '\'' | '"' => f.write_char(letter)?,
                    _ => write!(f, "{}", letter.escape_debug())?,
                }
            }
            write!(f, "{}", chunk.invalid().escape_ascii())?;
        }
        Ok(())
    }
}

/// An input before each read of which the output is shown as far as it has
/// come: a read may wait, for a pipe's other end or for a disk.
pub struct Watched<'a> {
    pub input: Box<dyn Read>,
    pub output: &'a RefCell<Output>,
}

impl Read for Watched<'_> {
    fn read(&mut self, buffer: &mut [u8]) -> io::Result<usize> {
        self.output.borrow_mut().before_read()?;
        let length = self.input.read(buffer)?;
        self.output.borrow_mut().progress.count(length);
        Ok(length)
    }
}

/// What an input is that has this first line, if that is no log but can be made one.
pub fn is_other(first: &[u8]) -> Option<&'static str> {
    // In UTF-16 every other byte of a sentence is zero.
    let is_zero = |odd: usize| {
        let mut bytes = first.iter().enumerate();
        first.len() >= 8 && bytes.all(|(at, &byte)| (byte == 0) == (at % 2 == odd))
    };
    Some(match first {
        [0x1F, 0x8B, ..] => "it is compressed with gzip: unpack it, as by gzip -dc FILE | transfer",
        [0xFF, 0xFE, ..] | [0xFE, 0xFF, ..] => {
            "it is text in UTF-16: convert it, as by iconv -f UTF-16 -t UTF-8 FILE | transfer"
        }
        _ if is_zero(1) => {
            "it is text in UTF-16: convert it, as by iconv -f UTF-16LE -t UTF-8 FILE | transfer"
        }
        _ if is_zero(0) => {
            "it is text in UTF-16: convert it, as by iconv -f UTF-16BE -t UTF-8 FILE | transfer"
        }
        _ => return None,
    })
}

/// Whether a log with this first line begins with a byte order mark, for which that line is refused.
pub fn has_mark(first: &[u8]) -> bool {
    first.starts_with("\u{FEFF}".as_bytes())
}
