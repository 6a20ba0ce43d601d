//! Reads logs, and tells which lines are refused and what the logs have.

#![deny(unsafe_code)]

mod closed;
mod input;
mod json;
mod options;
mod output;
mod summary;

use std::{
    cell::RefCell,
    env, fmt,
    io::{self, BufReader, IsTerminal, Write},
    mem,
    process::ExitCode,
};

use proved_nmea::{Entry, Group, Line, Reader, Totals};

use input::{has_mark, is_other, Input, Watched};
use options::{Options, USAGE};
use output::{tell, Output};
use summary::Summary;

/// The bytes that are read at a time.
const BUFFER: usize = 1 << 18;

fn main() -> ExitCode {
    let options = match Options::of(env::args_os().skip(1)) {
        Ok(options) => options,
        Err(why) => {
            tell(&format!("{why}\n{USAGE}"));
            return ExitCode::from(2);
        }
    };
    if closed::output() {
        tell("standard output: it is closed");
        return ExitCode::FAILURE;
    }
    let (end, failed) = match &options {
        Some(options) => run(options),
        None => (io::stdout().write_all(USAGE.as_bytes()), false),
    };
    match end {
        // Whoever read the output has seen enough.
        Err(error) if error.kind() != io::ErrorKind::BrokenPipe => {
            tell(&format!("standard output: {error}"));
            ExitCode::FAILURE
        }
        _ => ExitCode::from(u8::from(failed)),
    }
}

/// How the output fared, and whether anything could not be read.
fn run(options: &Options) -> (io::Result<()>, bool) {
    let size = options.inputs.iter().map(Input::size).sum();
    let output = RefCell::new(Output::new(size));
    let mut run = Run {
        options,
        output: &output,
        summary: Summary::default(),
        text: String::new(),
        failed: false,
    };
    let end = run.over_all();
    let failed = run.failed;
    output.borrow_mut().progress.clear();
    (end, failed)
}

/// One run over the inputs. Its errors are those of standard output, which end
/// it; an input's are told, and the next one is read.
struct Run<'a> {
    options: &'a Options,
    output: &'a RefCell<Output>,
    summary: Summary,
    /// An object of JSON, while it is written.
    text: String,
    failed: bool,
}

impl Run<'_> {
    fn over_all(&mut self) -> io::Result<()> {
        let inputs = &self.options.inputs;
        let mut total = None;
        for input in inputs {
            let Some(totals) = self.over(input)? else {
                continue;
            };
            *total.get_or_insert_with(Totals::default) += totals;
            if inputs.len() > 1 {
                self.totals(Some(&input.to_string()), &totals)?;
            }
        }
        // Where nothing could be read there is nothing to tell.
        if let Some(total) = total {
            let alone = inputs.first().filter(|_| inputs.len() == 1);
            self.totals(alone.map(Input::to_string).as_deref(), &total)?;
            self.summary()?;
        }
        self.output.borrow_mut().flush()
    }

    /// The totals of a log, each with a table of its own; none where nothing
    /// could be read, and those of a part where only that could be.
    fn over(&mut self, input: &Input) -> io::Result<Option<Totals>> {
        let opened = match Self::open(input) {
            Ok(opened) => opened,
            Err(why) => {
                self.fail(input, &why)?;
                return Ok(None);
            }
        };
        let watched = Watched {
            input: opened,
            output: self.output,
        };
        let name = input.to_string();
        let mut reader = Reader::new(BufReader::with_capacity(BUFFER, watched));
        loop {
            let line = match reader.next_line() {
                Ok(Some(line)) => line,
                Ok(None) => return Ok(Some(reader.totals())),
                Err(end) => {
                    self.output.borrow_mut().failure()?;
                    if end.line == 1 {
                        self.fail(input, &end.error)?;
                        return Ok(None);
                    }
                    let last = end.line - 1;
                    let why = format!("{}; read and counted up to line {last}", end.error);
                    self.fail(input, &why)?;
                    return Ok(Some(reader.totals()));
                }
            };
            if line.number() == 1 {
                if let Some(what) = is_other(line.bytes()) {
                    self.fail(input, &what)?;
                    return Ok(None);
                }
            }
            self.line(&name, &line)?;
        }
    }

    fn open(input: &Input) -> io::Result<Box<dyn io::Read>> {
        if let Input::Standard = input {
            if closed::input() {
                return Err(io::Error::other("standard input is closed"));
            }
            if io::stdin().is_terminal() {
                tell("reading the log from the terminal, to its end (Ctrl-D)");
            }
        }
        input.open()
    }

    fn line(&mut self, name: &str, line: &Line) -> io::Result<()> {
        if self.options.json {
            self.print_json(|text| json::line(text, name, line))?;
            if let Some(group) = line.group() {
                self.print_json(|text| json::group(text, name, &group))?;
            }
        } else {
            if let Some(refusal) = line.refusal() {
                self.print(format_args!("{name}:{}: {refusal}", line.number()))?;
            }
            if self.options.groups {
                if let Some(group) = line.group() {
                    self.print(format_args!("{}", Shown(name, &group)))?;
                }
            }
        }
        if self.options.summary {
            self.summary.add(line);
        }
        if line.number() == 1 && has_mark(line.bytes()) {
            let what =
                "it begins with a UTF-8 byte order mark, for which its first line is refused";
            self.output.borrow_mut().tell(&format!("{name}: {what}"))?;
        }
        Ok(())
    }

    /// The totals of one log, or of all.
    fn totals(&mut self, name: Option<&str>, totals: &Totals) -> io::Result<()> {
        if self.options.json {
            return self.print_json(|text| json::totals(text, name, totals));
        }
        match name {
            _ if self.options.inputs.len() == 1 => self.print(format_args!("{totals}")),
            Some(name) => self.print(format_args!("{name}: {totals}")),
            None => self.print(format_args!("total: {totals}")),
        }
    }

    fn summary(&mut self) -> io::Result<()> {
        let summary = mem::take(&mut self.summary);
        if self.options.summary && self.options.json {
            self.print_json(|text| json::summary(text, &summary))?;
        } else if self.options.summary {
            for line in summary.lines() {
                self.print(format_args!("{line}"))?;
            }
        }
        Ok(())
    }

    fn print_json(&mut self, write: impl FnOnce(&mut String)) -> io::Result<()> {
        self.text.clear();
        write(&mut self.text);
        self.print(format_args!("{}", self.text))
    }

    fn print(&self, line: fmt::Arguments) -> io::Result<()> {
        self.output.borrow_mut().print(line)
    }

    fn fail(&mut self, input: &Input, why: &dyn fmt::Display) -> io::Result<()> {
        self.failed = true;
        self.output.borrow_mut().tell(&format!("{input}: {why}"))
    }
}

/// A group, as in
/// `FILE:1,2: group GPS sentences 2 in view 2 satellites 3 (3 111 40) 4 (15 270 -)`:
/// behind each satellite its elevation, azimuth and signal.
struct Shown<'a>(&'a str, &'a Group);

impl fmt::Display for Shown<'_> {
    fn fmt(&self, f: &mut fmt::Formatter) -> fmt::Result {
        let Shown(name, group) = self;
        let mut before = ':';
        write!(f, "{name}")?;
        for line in &group.lines {
            write!(f, "{before}{line}")?;
            before = ',';
        }
        let (system, sentences, in_view) = (group.system, group.sentences, group.in_view);
        write!(
            f,
            ": group {system} sentences {sentences} in view {in_view} satellites"
        )?;
        for entry in &group.entries {
            let Entry { satellite, .. } = entry;
            let [elevation, azimuth, signal] = [entry.elevation, entry.azimuth, entry.signal]
                .map(|part| part.map_or("-".into(), |part| part.to_string()));
            write!(f, " {satellite} ({elevation} {azimuth} {signal})")?;
        }
        Ok(())
    }
}
