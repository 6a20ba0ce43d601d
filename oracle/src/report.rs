use std::{fmt, time::Duration};

use crate::{answer::Class, lines::Part, words::answer_of, Answer, Words};

/// What came of a comparison. It ends at the first difference.
#[derive(Clone, Debug, Default)]
pub struct Report {
    /// The parts that were run.
    pub parts: Vec<PartReport>,
    pub tally: Tally,
    /// How long it took.
    pub time: Duration,
    pub difference: Option<Box<Difference>>,
}

/// How much of a part was compared.
#[derive(Clone, Debug)]
pub struct PartReport {
    pub name: &'static str,
    pub lines: u64,
    /// How many lines the part has.
    pub count: u64,
}

/// How often each pair of classes came: ours, and the crate's. The two are the
/// same inside the domain and differ outside.
#[derive(Clone, Debug, Default)]
pub struct Tally {
    pairs: [[u64; Class::COUNT]; Class::COUNT],
}

/// A line on which the two sides differ.
#[derive(Clone, Debug)]
pub struct Difference {
    pub line: Vec<u8>,
    pub ours: Words,
    pub theirs: Answer,
    pub why: String,
}

impl Tally {
    pub(crate) fn count(&mut self, ours: Class, theirs: Class) {
        self.pairs[ours.index()][theirs.index()] += 1;
    }

    pub(crate) fn add(&mut self, other: &Tally) {
        for (row, others) in self.pairs.iter_mut().zip(&other.pairs) {
            for (count, more) in row.iter_mut().zip(others) {
                *count += more;
            }
        }
    }

    /// The lines that were compared and do not differ.
    pub fn lines(&self) -> u64 {
        self.pairs.iter().flatten().sum()
    }

    /// How many of them are inside the domain.
    pub fn inside(&self) -> u64 {
        (0..Class::COUNT)
            .map(|class| self.pairs[class][class])
            .sum()
    }
}

impl Report {
    pub(crate) fn add(&mut self, part: &Part, tally: &Tally) {
        self.tally.add(tally);
        self.parts.push(PartReport {
            name: part.name,
            lines: tally.lines(),
            count: part.count,
        });
    }

    /// The lines that were compared.
    pub fn lines(&self) -> u64 {
        self.tally.lines() + u64::from(self.difference.is_some())
    }
}

impl Difference {
    /// The classes of the two answers. Ours has none if its words are wrong.
    pub(crate) fn kind(&self) -> (Option<Class>, Class) {
        let ours = answer_of(&self.ours).ok().map(|ours| ours.answer.class());
        (ours, self.theirs.class())
    }
}

impl fmt::Display for Report {
    fn fmt(&self, f: &mut fmt::Formatter) -> fmt::Result {
        for part in &self.parts {
            writeln!(f, "{part}")?;
        }
        writeln!(f, "{}", self.tally)?;
        let seconds = self.time.as_secs_f64();
        let a_second = self.lines() as f64 / seconds;
        writeln!(f, "in {seconds:.1} seconds, {a_second:.0} lines a second")?;
        if let Some(difference) = &self.difference {
            writeln!(f, "{difference}")?;
        }
        write!(
            f,
            "compared {} lines, {} inside the domain, {} differ",
            self.lines(),
            self.tally.inside(),
            u8::from(self.difference.is_some())
        )
    }
}

impl fmt::Display for PartReport {
    fn fmt(&self, f: &mut fmt::Formatter) -> fmt::Result {
        write!(f, "{:>11}  {}", self.lines, self.name)?;
        match self.count {
            u64::MAX => Ok(()),
            count if count == self.lines => write!(f, ", all"),
            count => write!(f, ", of {count}"),
        }
    }
}

impl fmt::Display for Tally {
    fn fmt(&self, f: &mut fmt::Formatter) -> fmt::Result {
        write!(f, "of these, by their answers:")?;
        for ours in Class::all() {
            for theirs in Class::all() {
                let count = self.pairs[ours.index()][theirs.index()];
                if count > 0 {
                    write!(f, "\n{count:>11}  {}", ours.name())?;
                    if ours != theirs {
                        write!(f, "; the crate: {}", theirs.name())?;
                    }
                }
            }
        }
        Ok(())
    }
}

impl fmt::Display for Difference {
    fn fmt(&self, f: &mut fmt::Formatter) -> fmt::Result {
        writeln!(f, "line   \"{}\"", self.line.escape_ascii())?;
        write!(f, "bytes ")?;
        for byte in &self.line {
            write!(f, " {byte:02X}")?;
        }
        writeln!(f)?;
        match answer_of(&self.ours) {
            Ok(ours) => {
                writeln!(f, "ours   {:?}", ours.answer)?;
                writeln!(f, "exact  {:?}", ours.exact)?;
            }
            Err(_) => writeln!(f, "ours   {:?}", self.ours)?,
        }
        writeln!(f, "crate  {:?}", self.theirs)?;
        write!(f, "why    {}", self.why)
    }
}
