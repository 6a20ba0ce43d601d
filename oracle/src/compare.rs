use std::{
    io,
    sync::atomic::{AtomicBool, AtomicU64, Ordering},
    thread,
    time::{Duration, Instant},
};

use crate::{
    crate_answer, judge,
    lines::{corpus_lines, exhaustive_parts, worked_lines, Batch, Part},
    report::{Difference, Report, Tally},
    shrink::shrink,
    words::answer_of,
    Ours, Words,
};

/// How many threads compare at once.
const THREADS: usize = 2;

/// What is compared beside the worked lines and the logs.
#[derive(Clone, Copy, Debug)]
pub struct Plan {
    /// How many lines of each list that can be tried whole; all if it has no more.
    pub sample: u64,
    pub generated: Amount,
    /// Which lines are generated.
    pub seed: u64,
}

/// How many lines are generated.
#[derive(Clone, Copy, Debug)]
pub enum Amount {
    Lines(u64),
    /// Until so long after the start of the comparison.
    Time(Duration),
}

/// Compares the two sides, up to the first difference.
pub fn compare(ours: &Ours, plan: Plan) -> io::Result<Report> {
    let start = Instant::now();
    let (lines, end) = match plan.generated {
        Amount::Lines(lines) => (lines, None),
        Amount::Time(time) => (u64::MAX, Some(start + time)),
    };
    let whole = |part: Part| (part, u64::MAX, None);
    let mut parts = vec![whole(Part::of_lines("worked lines", worked_lines()))];
    match corpus_lines() {
        Ok(lines) => parts.push(whole(Part::of_lines("lines of the logs", lines))),
        Err(why) => eprintln!("the logs are skipped: {why}"),
    }
    let sampled = exhaustive_parts().into_iter();
    parts.extend(sampled.map(|part| (part, plan.sample, None)));
    parts.push((Part::generated(plan.seed), lines, end));

    let mut report = Report::default();
    for (part, most, end) in parts {
        let wanted = part.count.min(most);
        let (tally, difference) = run(ours, &part, wanted, end)?;
        report.add(&part, &tally);
        if let Some(difference) = difference {
            // A difference that cannot be made smaller is told as it is.
            report.difference = Some(smallest(ours, &difference).unwrap_or(difference));
            break;
        }
    }
    report.time = start.elapsed();
    Ok(report)
}

type Ran = (Tally, Option<Box<Difference>>);

/// Compares the first lines of a part, on all threads.
fn run(ours: &Ours, part: &Part, wanted: u64, end: Option<Instant>) -> io::Result<Ran> {
    let work = Work {
        ours,
        part,
        wanted,
        end,
        next: AtomicU64::new(0),
        is_over: AtomicBool::new(false),
    };
    thread::scope(|scope| {
        let threads: Vec<_> = (0..THREADS)
            .map(|_| scope.spawn(|| work.do_batches()))
            .collect();
        let mut all = Ran::default();
        for thread in threads {
            let (tally, difference) = thread.join().expect("a comparing thread panicked")?;
            all.0.add(&tally);
            all.1 = all.1.or(difference);
        }
        Ok(all)
    })
}

/// What the threads share.
struct Work<'a> {
    ours: &'a Ours,
    part: &'a Part,
    wanted: u64,
    end: Option<Instant>,
    /// The first line that no thread has taken.
    next: AtomicU64,
    /// Whether a thread met a difference or an error.
    is_over: AtomicBool,
}

impl Work<'_> {
    /// What one thread does: batch after batch, until there is none.
    fn do_batches(&self) -> io::Result<Ran> {
        let mut tally = Tally::default();
        let mut batch = Batch::default();
        while self.take(&mut batch) {
            match self.check(&batch, &mut tally) {
                Ok(None) => {}
                stop => {
                    self.is_over.store(true, Ordering::Relaxed);
                    return stop.map(|difference| (tally, difference));
                }
            }
        }
        Ok((tally, None))
    }

    /// Takes the next batch, if there is one.
    fn take(&self, batch: &mut Batch) -> bool {
        let is_late = self.end.is_some_and(|end| Instant::now() >= end);
        if is_late || self.is_over.load(Ordering::Relaxed) {
            return false;
        }
        let size = self.ours.batch();
        let start = self.next.fetch_add(size, Ordering::Relaxed);
        batch.clear();
        self.part.fill(start..self.wanted.min(start + size), batch);
        !batch.is_empty()
    }

    /// Counts the lines of a batch up to the first difference, which it answers.
    fn check(&self, batch: &Batch, tally: &mut Tally) -> io::Result<Option<Box<Difference>>> {
        for (line, words) in batch.lines().zip(self.ours.answers(batch)?) {
            if let Err(difference) = check(line, &words, tally) {
                return Ok(Some(difference));
            }
        }
        Ok(None)
    }
}

/// Holds our words for a line against the crate's answer, and counts the line.
fn check(line: &[u8], words: &Words, tally: &mut Tally) -> Result<(), Box<Difference>> {
    let theirs = crate_answer(line);
    let judged = answer_of(words).and_then(|ours| {
        judge(line, &ours, &theirs)?;
        Ok(ours.answer.class())
    });
    match judged {
        Ok(class) => {
            tally.count(class, theirs.class());
            Ok(())
        }
        Err(why) => Err(Box::new(Difference {
            line: line.to_vec(),
            ours: *words,
            theirs,
            why,
        })),
    }
}

/// A difference of the same kind, on the shortest line that dropping bytes
/// leads to.
fn smallest(ours: &Ours, difference: &Difference) -> io::Result<Box<Difference>> {
    let mut smallest = Box::new(difference.clone());
    shrink(&difference.line, |lines| {
        for (index, words) in ours.answers(lines)?.iter().enumerate() {
            match check(lines.line(index), words, &mut Tally::default()) {
                Err(shorter) if shorter.kind() == difference.kind() => {
                    smallest = shorter;
                    return Ok(Some(index));
                }
                _ => {}
            }
        }
        Ok(None)
    })?;
    Ok(smallest)
}
