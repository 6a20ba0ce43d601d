//! The objects of `--json`. Their keys are listed in the README.

use std::fmt::{self, Display, Write};

use proved_nmea::{
    Answer, Coordinate, Decimal, Entry, Gga, Gll, Group, Gsa, Gsv, Line, Position, Refusal, Rmc,
    Sentence, Speed, Totals, Vtg,
};

use crate::summary::{after_checksum, Summary};

/// An object as far as it is written. Writing into a string has no errors.
struct Object<'a> {
    text: &'a mut String,
    is_empty: bool,
}

impl Object<'_> {
    /// Writes a whole object.
    fn write(text: &mut String, fill: impl FnOnce(&mut Object)) {
        text.push('{');
        let is_empty = true;
        fill(&mut Object { text, is_empty });
        text.push('}');
    }

    /// Writes a key; its value is to follow.
    fn key(&mut self, key: impl Display) -> &mut String {
        if !self.is_empty {
            self.text.push(',');
        }
        self.is_empty = false;
        let _ = write!(self.text, "\"{key}\":");
        self.text
    }

    fn number(&mut self, key: &str, value: impl Into<Option<u64>>) {
        let text = self.key(key);
        let _ = match value.into() {
            Some(value) => write!(text, "{value}"),
            None => write!(text, "null"),
        };
    }

    fn string(&mut self, key: &str, value: impl Display) {
        let text = self.key(key);
        text.push('"');
        let _ = write!(Escaped(text), "{value}");
        text.push('"');
    }

    fn string_or_null(&mut self, key: &str, value: Option<impl Display>) {
        match value {
            Some(value) => self.string(key, value),
            None => self.key(key).push_str("null"),
        }
    }

    fn object<T>(&mut self, key: &str, value: Option<T>, fill: impl FnOnce(&mut Object, T)) {
        let text = self.key(key);
        match value {
            Some(value) => Object::write(text, |object| fill(object, value)),
            None => text.push_str("null"),
        }
    }

    fn list<T>(&mut self, key: &str, items: impl Iterator<Item = T>, put: fn(&mut String, T)) {
        let text = self.key(key);
        text.push('[');
        for (at, item) in items.enumerate() {
            if at > 0 {
                text.push(',');
            }
            put(text, item);
        }
        text.push(']');
    }
}

/// A string's inner text, of any characters.
struct Escaped<'a>(&'a mut String);

impl Write for Escaped<'_> {
    fn write_str(&mut self, part: &str) -> fmt::Result {
        for letter in part.chars() {
            match letter {
                '"' | '\\' => self.0.extend(['\\', letter]),
                '\0'..='\x1F' | '\x7F' => write!(self.0, "\\u{:04x}", u32::from(letter))?,
                _ => self.0.push(letter),
            }
        }
        Ok(())
    }
}

/// Writes a line and what it says.
pub fn line(text: &mut String, file: &str, line: &Line) {
    let answer = line.answer();
    Object::write(text, |object| {
        let kind = match &answer {
            Answer::Sentence(Sentence::Rmc(_)) => "rmc",
            Answer::Sentence(Sentence::Gsa(_)) => "gsa",
            Answer::Sentence(Sentence::Gsv(_)) => "gsv",
            Answer::Sentence(Sentence::Gga(_)) => "gga",
            Answer::Sentence(Sentence::Gll(_)) => "gll",
            Answer::Sentence(Sentence::Vtg(_)) => "vtg",
            Answer::Sentence(_) => "other",
            Answer::Refused(_) => "refused",
            Answer::Blank => "blank",
        };
        object.string("kind", kind);
        object.string("file", file);
        object.number("line", line.number());
        match &answer {
            Answer::Sentence(sentence) => {
                let rest = after_checksum(line.bytes());
                object.number("after_checksum", rest.len() as u64);
                match sentence {
                    Sentence::Rmc(record) => rmc(object, record),
                    Sentence::Gsa(record) => gsa(object, record),
                    Sentence::Gsv(record) => gsv(object, record),
                    Sentence::Gga(record) => gga(object, record),
                    Sentence::Gll(record) => gll(object, record),
                    Sentence::Vtg(record) => vtg(object, record),
                    _ => {
                        object.string("talker", sentence.talker().as_str());
                        object.string("type", sentence.type_name());
                    }
                }
            }
            Answer::Refused(why) => refusal(object, why),
            Answer::Blank => {}
        }
    });
}

fn rmc(object: &mut Object, record: &Rmc) {
    object.string("talker", record.talker.as_str());
    object.string_or_null("date", record.date);
    object.string_or_null("time", record.time);
    let since = record.timestamp();
    object.number("seconds", since.map(|since| since.as_secs()));
    object.number(
        "nanoseconds",
        since.map(|since| since.subsec_nanos().into()),
    );
    object.string("status", record.status.letter());
    position(object, record.position);
    object.object("speed", record.speed, decimal);
    object.object("course", record.course, decimal);
    object.object("variation", record.variation, decimal);
    object.string_or_null("mode", record.mode.map(|mode| mode.letter()));
    let status = record.navigational_status;
    object.string_or_null("navigational_status", status.map(|status| status.letter()));
}

fn gsa(object: &mut Object, record: &Gsa) {
    object.string("talker", record.talker.as_str());
    object.string_or_null("system", record.system);
    object.string("selection", record.selection.letter());
    object.string("fix", record.fix.letter());
    let dops = record.dops;
    object.object("pdop", dops.map(|dops| dops.pdop), decimal);
    object.object("hdop", dops.map(|dops| dops.hdop), decimal);
    object.object("vdop", dops.map(|dops| dops.vdop), decimal);
    object.list("satellites", record.satellites.iter(), |text, satellite| {
        let _ = write!(text, "{satellite}");
    });
}

fn gsv(object: &mut Object, record: &Gsv) {
    object.string("talker", record.talker.as_str());
    object.string("system", record.system);
    object.number("sentences", u64::from(record.sentences));
    object.number("number", u64::from(record.number));
    object.number("in_view", u64::from(record.in_view));
    object.list("satellites", record.satellites(), entry);
}

fn gga(object: &mut Object, record: &Gga) {
    object.string("talker", record.talker.as_str());
    object.string_or_null("time", record.time);
    position(object, record.position);
    object.string("fix", record.fix.letter());
    object.number("satellites", record.satellites.map(u64::from));
    object.object("hdop", record.hdop, decimal);
    object.object("altitude", record.altitude, decimal);
    object.object("geoid_separation", record.geoid_separation, decimal);
}

fn gll(object: &mut Object, record: &Gll) {
    object.string("talker", record.talker.as_str());
    object.string_or_null("time", record.time);
    object.string("status", record.status.letter());
    position(object, record.position);
    object.string_or_null("mode", record.mode.map(|mode| mode.letter()));
}

fn vtg(object: &mut Object, record: &Vtg) {
    object.string("talker", record.talker.as_str());
    object.object("speed", record.speed, speed);
    object.object("course", record.course, decimal);
}

fn refusal(object: &mut Object, refusal: &Refusal) {
    object.number("refusal", u64::from(refusal.number()));
    object.string("name", refusal.name());
    match *refusal {
        Refusal::TooLong(length) => object.number("length", length as u64),
        Refusal::Checksum { calculated, found } => {
            object.number("calculated", u64::from(calculated));
            object.number("found", u64::from(found));
        }
        Refusal::UnknownTalker(talker) => object.string("talker", talker.as_str()),
        Refusal::SystemMismatch { talker, tail } => {
            object.string("talker_system", talker);
            object.string("tail_system", tail);
        }
        // The others carry nothing, or are no line's.
        _ => {}
    }
}

/// A decimal as it is written, its digits, and its float.
fn decimal(object: &mut Object, part: Decimal) {
    object.string("text", part);
    let _ = write!(object.key("whole"), "{}", part.whole);
    object.number("decimals", u64::from(part.decimals));
    // As few digits as tell it from every other float; it is finite.
    let _ = write!(object.key("value"), "{:?}", part.value);
}

/// A decimal, its unit, and its float in knots.
fn speed(object: &mut Object, part: Speed) {
    decimal(object, part.written);
    object.string("unit", part.unit.letter());
    let _ = write!(object.key("knots"), "{:?}", part.knots);
}

/// Both coordinates, or neither.
fn position(object: &mut Object, part: Option<Position>) {
    object.object("latitude", part.map(|at| at.latitude), coordinate);
    object.object("longitude", part.map(|at| at.longitude), coordinate);
}

fn coordinate(object: &mut Object, part: Coordinate) {
    let _ = write!(object.key("billionths"), "{}", part.billionths);
    object.string("hemisphere", part.hemisphere.letter());
    let _ = write!(object.key("degrees"), "{:?}", part.degrees);
}

fn entry(text: &mut String, item: Entry) {
    Object::write(text, |object| {
        object.number("satellite", u64::from(item.satellite));
        object.number("elevation", item.elevation.map(u64::from));
        object.number("azimuth", item.azimuth.map(u64::from));
        object.number("signal", item.signal.map(u64::from));
    });
}

/// Writes a group of a log.
pub fn group(text: &mut String, file: &str, group: &Group) {
    Object::write(text, |object| {
        object.string("kind", "group");
        object.string("file", file);
        object.list("lines", group.lines.iter(), |text, line| {
            let _ = write!(text, "{line}");
        });
        object.string("system", group.system);
        object.number("sentences", u64::from(group.sentences));
        object.number("in_view", u64::from(group.in_view));
        object.list("satellites", group.entries.iter().copied(), entry);
    });
}

/// Writes the totals of a log, or of all.
pub fn totals(text: &mut String, file: Option<&str>, totals: &Totals) {
    Object::write(text, |object| {
        object.string("kind", "totals");
        object.string_or_null("file", file);
        object.number("lines", totals.lines);
        object.number("blank", totals.blank);
        object.number("accepted", totals.accepted);
        object.number("refused", totals.refused);
        object.number("groups", totals.groups);
    });
}

/// Writes what all logs have.
pub fn summary(text: &mut String, summary: &Summary) {
    Object::write(text, |object| {
        object.string("kind", "summary");
        object.object("types", Some(&summary.types), |object, types| {
            for (name, &count) in types {
                object.number(name.as_str(), count);
            }
        });
        object.object("refusals", Some(&summary.refusals), |object, refusals| {
            for (&(_, name), &count) in refusals {
                object.number(name, count);
            }
        });
        object.object("systems", Some(&summary.systems), |object, systems| {
            for (system, counts) in systems {
                object.object(system.name(), Some(counts), |object, counts| {
                    object.number("gsv", counts.gsv);
                    object.number("gsa", counts.gsa);
                    object.number("groups", counts.groups);
                });
            }
        });
        object.number("gsv_in_no_group", summary.ungrouped);
        object.number("groups_with_fewer", summary.fewer);
        object.number("groups_with_more", summary.more);
        object.number("after_checksum", summary.trailing);
        object.number("sentence_after_checksum", summary.glued);
    });
}
