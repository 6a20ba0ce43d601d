//! What the command line asks for.

use std::ffi::OsString;

use crate::input::Input;

pub const USAGE: &str = "\
usage: transfer [--groups] [--summary] [--json] [FILE..]

Reads receivers' logs of NMEA 0183 sentences, of any size, and prints a line
for each line that is refused, as

    FILE:LINE: refused 6 Checksum (calculated 32, found 33)

and behind each log's last line its totals, as

    lines 5 blank 1 accepted 3 refused 1 groups 1

where groups are the lists of satellites that stand in a log, complete and in
order. Of several files each has its own totals, before those of all. Without
a FILE, and for -, standard input is read.

  --groups     prints each group at its last line: the numbers of its lines,
               its system, sentences, satellites in view and satellites
  --summary    prints behind the totals what all logs have: lines by type, by
               refusal and by system, GSV lines that are in no group, groups
               with fewer or more entries than in view, and lines with bytes
               after their checksum
  --json       prints JSON Lines in place of text: an object for each line,
               group, totals and summary
  -h, --help   prints this
  --           what follows are files, also where a name starts with -

Exit status: 0 each log was read to its end, whether lines were refused or
not; 1 one could not be, or the output could not be written, and why is told;
2 bad usage.
";

/// What a run is to do.
#[derive(Default)]
pub struct Options {
    pub groups: bool,
    pub summary: bool,
    pub json: bool,
    pub inputs: Vec<Input>,
}

impl Options {
    /// Those of the words, or none where help is asked for.
    pub fn of(words: impl Iterator<Item = OsString>) -> Result<Option<Self>, String> {
        let mut asked = Options::default();
        let mut options = true;
        for word in words {
            match word.to_str() {
                Some("-") if options => asked.inputs.push(Input::Standard),
                Some("--") if options => options = false,
                Some("-h" | "--help") if options => return Ok(None),
                Some("--groups") if options => asked.groups = true,
                Some("--summary") if options => asked.summary = true,
                Some("--json") if options => asked.json = true,
                _ if options && word.as_encoded_bytes().starts_with(b"-") => {
                    return Err(format!("there is no option {}", Input::File(word.into())));
                }
                _ => asked.inputs.push(Input::File(word.into())),
            }
        }
        if asked.json && asked.groups {
            return Err("--json prints the groups too: leave --groups out".into());
        }
        let is_standard = |input: &&Input| matches!(input, Input::Standard);
        if asked.inputs.iter().filter(is_standard).count() > 1 {
            return Err("- is named twice, and standard input is read once".into());
        }
        if asked.inputs.is_empty() {
            asked.inputs.push(Input::Standard);
        }
        Ok(Some(asked))
    }
}
