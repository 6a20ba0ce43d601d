use crate::{
    abi::{self, WORDS},
    places::{GGA, GLL, GSA, GSV, KIND, OTHER, OTHER_TYPE, REFUSED, RMC, TALKER, VTG},
    words::{proved, Unfit, Words},
    Gga, Gll, Gsa, Gsv, Refusal, Rmc, Talker, TypeName, Vtg,
};

/// What an accepted line says.
#[derive(Clone, Debug, PartialEq, Eq, Hash)]
#[non_exhaustive]
pub enum Sentence {
    /// When, where, and which way.
    Rmc(Rmc),
    /// The satellites of the fix and its precision.
    Gsa(Gsa),
    /// A part of the list of satellites in view.
    Gsv(Gsv),
    /// A right sentence of a known type that is not read.
    Other(Other),
    /// When, where and how high, and by what fix.
    Gga(Gga),
    /// Where, and when.
    Gll(Gll),
    /// Which way, and how fast.
    Vtg(Vtg),
}

/// A right sentence of a known type that is not read.
#[derive(Clone, Copy, Debug, PartialEq, Eq, Hash)]
#[non_exhaustive]
pub struct Other {
    /// Who sent it.
    pub talker: Talker,
    /// Its type.
    pub type_name: TypeName,
}

impl Other {
    fn of(words: &Words) -> Result<Self, Unfit> {
        Ok(Other {
            talker: Talker::of(words, TALKER)?,
            type_name: TypeName::of(words, OTHER_TYPE)?,
        })
    }
}

impl Sentence {
    /// Who sent it.
    pub fn talker(&self) -> Talker {
        match self {
            Sentence::Rmc(record) => record.talker,
            Sentence::Gsa(record) => record.talker,
            Sentence::Gsv(record) => record.talker,
            Sentence::Other(other) => other.talker,
            Sentence::Gga(record) => record.talker,
            Sentence::Gll(record) => record.talker,
            Sentence::Vtg(record) => record.talker,
        }
    }

    /// Its type.
    pub fn type_name(&self) -> TypeName {
        match self {
            Sentence::Rmc(_) => TypeName::RMC,
            Sentence::Gsa(_) => TypeName::GSA,
            Sentence::Gsv(_) => TypeName::GSV,
            Sentence::Other(other) => other.type_name,
            Sentence::Gga(_) => TypeName::GGA,
            Sentence::Gll(_) => TypeName::GLL,
            Sentence::Vtg(_) => TypeName::VTG,
        }
    }
}

/// Reads a line, without its line end, of any bytes.
///
/// # Panics
///
/// On no line. It is proved of the library that its answers are those of
/// `docs/ABI.md`; one of another making, linked in its place, may answer
/// something else, and that is told by a panic.
pub fn read(line: &[u8]) -> Result<Sentence, Refusal> {
    let mut words = [0; WORDS];
    // Undone it is only with a buffer too short, and then word 0 is unfit.
    abi::answer(line, &mut words);
    proved(answer(&Words(&words)))
}

/// The number of the line's refusal, 0 if [`read`] accepts it.
pub fn refusal_number(line: &[u8]) -> u32 {
    abi::refusal(line)
}

/// What the words of an answer say.
pub(crate) fn answer(words: &Words) -> Result<Result<Sentence, Refusal>, Unfit> {
    Ok(match words.word(KIND)? {
        RMC => Ok(Sentence::Rmc(Rmc::of(words)?)),
        GSA => Ok(Sentence::Gsa(Gsa::of(words)?)),
        GSV => Ok(Sentence::Gsv(Gsv::of(words)?)),
        OTHER => Ok(Sentence::Other(Other::of(words)?)),
        REFUSED => Err(Refusal::of(words)?),
        GGA => Ok(Sentence::Gga(Gga::of(words)?)),
        GLL => Ok(Sentence::Gll(Gll::of(words)?)),
        VTG => Ok(Sentence::Vtg(Vtg::of(words)?)),
        _ => return Err(words.unfit(KIND)),
    })
}
