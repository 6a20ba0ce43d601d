//! Our answer's words, by docs/ABI.md, in the crate's terms.

mod reader;
mod writer;

use crate::{
    Answer, Coordinate, Date, Decimal, Entry, Exact, Gga, Gll, Gsa, Gsv, Refusal, Rmc, Speed, Time,
    Vtg, WholeEntry,
};
pub(crate) use reader::Reader;
pub use writer::words_of;

pub const WORDS: usize = 40;

/// What a call answers that has written what it must.
pub const DONE: u32 = 0;

/// What one answers that has written nothing.
pub const UNDONE: u32 = 255;

/// The words of one answer.
pub type Words = [u64; WORDS];

/// Our answer to one line.
#[derive(Clone, Debug, PartialEq, Eq)]
pub struct OursAnswer {
    /// What the crate answers too.
    pub answer: Answer,
    /// What only ours has.
    pub exact: Exact,
}

/// Reads the words of an answer. An error names the word that no answer has.
pub fn answer_of(words: &Words) -> Result<OursAnswer, String> {
    let mut reader = Reader::new(words);
    let answer = match reader.word() {
        1 => rmc(&mut reader),
        2 => gsa(&mut reader),
        3 => gsv(&mut reader),
        4 => other(&mut reader),
        5 => refusal(&mut reader).map(|refusal| OursAnswer {
            answer: Answer::Refused(refusal),
            exact: Exact::default(),
        }),
        6 => gga(&mut reader),
        7 => gll(&mut reader),
        8 => vtg(&mut reader),
        _ => Err(reader.unfit("no kind of answer")),
    }?;
    reader.end()?;
    Ok(answer)
}

/// The talker, with which every accepted line's answer begins.
fn talker(reader: &mut Reader) -> Result<Option<[u8; 2]>, String> {
    Ok(Some([reader.fits()?, reader.fits()?]))
}

fn other(reader: &mut Reader) -> Result<OursAnswer, String> {
    let talker = talker(reader)?;
    Ok(OursAnswer {
        answer: Answer::Other([reader.fits()?, reader.fits()?, reader.fits()?]),
        exact: Exact {
            talker,
            ..Exact::default()
        },
    })
}

fn rmc(reader: &mut Reader) -> Result<OursAnswer, String> {
    let talker = talker(reader)?;
    let time = time(reader)?;
    let status = reader.letter()?;
    let position = position(reader)?;
    let speed = reader.optional(4, decimal)?;
    let course = reader.optional(4, decimal)?;
    let date = reader.optional(3, |reader| {
        Ok(Date {
            year: reader.fits()?,
            month: reader.fits()?,
            day: reader.fits()?,
        })
    })?;
    let variation = reader.optional(4, decimal)?;
    let record = Rmc {
        time,
        status,
        latitude: position.map(|[latitude, _]| latitude.bits),
        longitude: position.map(|[_, longitude]| longitude.bits),
        speed: speed.map(|decimal| decimal.bits),
        course: course.map(|decimal| decimal.bits),
        date,
        variation: variation.map(|decimal| decimal.bits),
        mode: reader.optional_letter()?,
        navigation: reader.optional_letter()?,
    };
    Ok(OursAnswer {
        answer: Answer::Rmc(record),
        exact: Exact {
            talker,
            position,
            decimals: [speed, course, variation],
            ..Exact::default()
        },
    })
}

fn gsa(reader: &mut Reader) -> Result<OursAnswer, String> {
    let talker = talker(reader)?;
    let mode = reader.letter()?;
    let fix = match reader.letter()? {
        letter @ '1'..='3' => letter as u8 - b'0',
        _ => return Err(reader.unfit("no fix")),
    };
    let system = reader.optional_system(4)?;
    let dops = reader.optional(12, |reader| {
        Ok([decimal(reader)?, decimal(reader)?, decimal(reader)?])
    })?;
    let count: usize = reader.fits()?;
    if count > 18 {
        return Err(reader.unfit("too many satellites"));
    }
    let mut satellites = vec![];
    for _ in 0..count {
        satellites.push(reader.fits()?);
    }
    let decimals = dops.map_or([None; 3], |dops| dops.map(Some));
    let [pdop, hdop, vdop] = decimals.map(|dop| dop.map(|decimal| decimal.bits));
    let record = Gsa {
        mode,
        fix,
        satellites,
        pdop,
        hdop,
        vdop,
        system,
    };
    Ok(OursAnswer {
        answer: Answer::Gsa(record),
        exact: Exact {
            talker,
            decimals,
            ..Exact::default()
        },
    })
}

fn gsv(reader: &mut Reader) -> Result<OursAnswer, String> {
    let talker = talker(reader)?;
    let system = reader.system(6)?;
    let sentences = reader.fits()?;
    let number = reader.fits()?;
    let in_view = reader.fits()?;
    let mut entries = [None; 4];
    for entry in &mut entries {
        *entry = reader.optional(7, whole_entry)?;
    }
    let record = Gsv {
        system,
        sentences,
        number,
        in_view,
        entries: entries.map(|entry| entry.map(Entry::from)),
    };
    Ok(OursAnswer {
        answer: Answer::Gsv(record),
        exact: Exact {
            talker,
            entries,
            ..Exact::default()
        },
    })
}

fn gga(reader: &mut Reader) -> Result<OursAnswer, String> {
    let talker = talker(reader)?;
    let time = time(reader)?;
    let position = position(reader)?;
    let fix = match reader.letter()? {
        digit @ '0'..='8' => digit,
        _ => return Err(reader.unfit("no fix")),
    };
    let satellites = reader.optional(1, Reader::fits)?;
    let hdop = reader.optional(4, decimal)?;
    let altitude = reader.optional(4, decimal)?;
    let geoid = reader.optional(4, decimal)?;
    let record = Gga {
        time,
        latitude: position.map(|[latitude, _]| latitude.bits),
        longitude: position.map(|[_, longitude]| longitude.bits),
        fix,
        satellites,
        hdop: hdop.map(|decimal| decimal.bits),
        altitude: altitude.map(|decimal| decimal.bits),
        geoid: geoid.map(|decimal| decimal.bits),
    };
    Ok(OursAnswer {
        answer: Answer::Gga(record),
        exact: Exact {
            talker,
            position,
            decimals: [hdop, altitude, geoid],
            ..Exact::default()
        },
    })
}

fn gll(reader: &mut Reader) -> Result<OursAnswer, String> {
    let talker = talker(reader)?;
    let position = position(reader)?;
    let record = Gll {
        latitude: position.map(|[latitude, _]| latitude.bits),
        longitude: position.map(|[_, longitude]| longitude.bits),
        time: time(reader)?,
        status: reader.letter()?,
        mode: reader.optional_letter()?,
    };
    Ok(OursAnswer {
        answer: Answer::Gll(record),
        exact: Exact {
            talker,
            position,
            ..Exact::default()
        },
    })
}

fn vtg(reader: &mut Reader) -> Result<OursAnswer, String> {
    let talker = talker(reader)?;
    let course = reader.optional(4, decimal)?;
    let speed = reader.optional(6, speed)?;
    let record = Vtg {
        course: course.map(|decimal| decimal.bits),
        speed: speed.map(|speed| speed.knots),
    };
    Ok(OursAnswer {
        answer: Answer::Vtg(record),
        exact: Exact {
            talker,
            decimals: [course, None, None],
            speed,
            ..Exact::default()
        },
    })
}

fn whole_entry(reader: &mut Reader) -> Result<WholeEntry, String> {
    Ok(WholeEntry {
        satellite: reader.fits()?,
        elevation: reader.optional(1, Reader::fits)?,
        azimuth: reader.optional(1, Reader::fits)?,
        signal: reader.optional(1, Reader::fits)?,
    })
}

fn refusal(reader: &mut Reader) -> Result<Refusal, String> {
    let number = reader.word();
    let count = reader.word();
    let carried = match number {
        1 | 2 | 4 | 5 | 9 | 11 => 0,
        3 => 1,
        6..=8 => 2,
        10 => 6,
        _ => return Err(format!("a line has no refusal {number}")),
    };
    if count != carried {
        return Err(reader.unfit("not the values that it carries"));
    }
    Ok(match number {
        1 => Refusal::BadUtf8,
        2 => Refusal::NotAscii,
        3 => Refusal::TooLong(reader.fits()?),
        4 => Refusal::Syntax,
        5 => Refusal::UnknownType,
        6 => Refusal::Checksum {
            calculated: reader.fits()?,
            found: reader.fits()?,
        },
        7 => Refusal::UnknownTalker([reader.fits()?, reader.fits()?]),
        8 => Refusal::SystemMismatch {
            talker: reader.system(4)?,
            tail: reader.system(4)?,
        },
        9 => Refusal::Number,
        10 => Refusal::WrongHeader {
            expected: [reader.fits()?, reader.fits()?, reader.fits()?],
            found: [reader.fits()?, reader.fits()?, reader.fits()?],
        },
        _ => Refusal::BadTime,
    })
}

fn decimal(reader: &mut Reader) -> Result<Decimal, String> {
    Ok(Decimal {
        minus: reader.flag()?,
        digits: reader.fits()?,
        decimals: reader.fits()?,
        bits: reader.fits()?,
    })
}

fn speed(reader: &mut Reader) -> Result<Speed, String> {
    Ok(Speed {
        unit: reader.letter()?,
        written: decimal(reader)?,
        knots: reader.fits()?,
    })
}

fn time(reader: &mut Reader) -> Result<Option<Time>, String> {
    reader.optional(4, |reader| {
        Ok(Time {
            hour: reader.fits()?,
            minute: reader.fits()?,
            second: reader.fits()?,
            nanosecond: reader.fits()?,
        })
    })
}

/// Latitude and longitude.
fn position(reader: &mut Reader) -> Result<Option<[Coordinate; 2]>, String> {
    reader.optional(8, |reader| Ok([coordinate(reader)?, coordinate(reader)?]))
}

fn coordinate(reader: &mut Reader) -> Result<Coordinate, String> {
    Ok(Coordinate {
        minus: reader.flag()?,
        count: reader.word(),
        letter: reader.letter()?,
        bits: reader.word(),
    })
}
