use super::{OursAnswer, Words, WORDS};
use crate::{
    Answer, Coordinate, Decimal, Exact, F64Bits, Gga, Gll, Gsa, Gsv, Refusal, Rmc, System, Time,
    Vtg, WholeEntry,
};

/// The words of an answer, by docs/ABI.md: what `answer_of` reads. Floats are
/// those of the part that the crate answers too.
pub fn words_of(ours: &OursAnswer) -> Words {
    let mut writer = Writer {
        words: [0; WORDS],
        at: 0,
    };
    match &ours.answer {
        Answer::Rmc(record) => writer.rmc(record, &ours.exact),
        Answer::Gsa(record) => writer.gsa(record, &ours.exact),
        Answer::Gsv(record) => writer.gsv(record, &ours.exact),
        Answer::Gga(record) => writer.gga(record, &ours.exact),
        Answer::Gll(record) => writer.gll(record, &ours.exact),
        Answer::Vtg(record) => writer.vtg(record, &ours.exact),
        Answer::Other(name) => {
            writer.head(4, &ours.exact);
            writer.bytes(name);
        }
        Answer::Refused(refusal) => writer.refusal(refusal),
    }
    writer.words
}

/// Puts the words of an answer one after another.
struct Writer {
    words: Words,
    /// The next word. Those from it on are 0.
    at: usize,
}

impl Writer {
    fn put(&mut self, word: impl Into<u64>) {
        self.words[self.at] = word.into();
        self.at += 1;
    }

    fn bytes(&mut self, bytes: &[u8]) {
        for &byte in bytes {
            self.put(byte);
        }
    }

    /// A part with a 1 before it, or as many words as it has and one, all 0.
    fn optional<T>(&mut self, part: Option<T>, count: usize, put: impl FnOnce(&mut Self, T)) {
        let end = self.at + 1 + count;
        if let Some(part) = part {
            self.put(true);
            put(self, part);
        }
        self.at = end;
    }

    /// What follows, and the talker.
    fn head(&mut self, kind: u8, exact: &Exact) {
        self.put(kind);
        self.bytes(&exact.talker.unwrap_or_default());
    }

    fn rmc(&mut self, record: &Rmc, exact: &Exact) {
        self.head(1, exact);
        self.time(record.time);
        self.put(record.status);
        self.position(record.latitude.zip(record.longitude), exact);
        let [speed, course, variation] = exact.decimals;
        self.optional(speed.zip(record.speed), 4, Writer::decimal);
        self.optional(course.zip(record.course), 4, Writer::decimal);
        self.optional(record.date, 3, |writer, date| {
            writer.put(date.year as u64);
            writer.put(date.month);
            writer.put(date.day);
        });
        self.optional(variation.zip(record.variation), 4, Writer::decimal);
        self.put(record.mode.unwrap_or('\0'));
        self.put(record.navigation.unwrap_or('\0'));
    }

    fn gsa(&mut self, record: &Gsa, exact: &Exact) {
        self.head(2, exact);
        self.put(record.mode);
        self.put(b'0' + record.fix);
        self.put(record.system.map_or(0, System::number));
        let [pdop, hdop, vdop] = exact.decimals;
        let dops = pdop
            .zip(record.pdop)
            .zip(hdop.zip(record.hdop))
            .zip(vdop.zip(record.vdop));
        self.optional(dops, 12, |writer, ((pdop, hdop), vdop)| {
            writer.decimal(pdop);
            writer.decimal(hdop);
            writer.decimal(vdop);
        });
        self.put(record.satellites.len() as u64);
        for &satellite in &record.satellites {
            self.put(satellite);
        }
    }

    fn gsv(&mut self, record: &Gsv, exact: &Exact) {
        self.head(3, exact);
        self.put(record.system.number());
        self.put(record.sentences);
        self.put(record.number);
        self.put(record.in_view);
        for entry in exact.entries {
            self.optional(entry, 7, Writer::entry);
        }
    }

    fn gga(&mut self, record: &Gga, exact: &Exact) {
        self.head(6, exact);
        self.time(record.time);
        self.position(record.latitude.zip(record.longitude), exact);
        self.put(record.fix);
        self.optional(record.satellites, 1, |writer, count| writer.put(count));
        let [hdop, altitude, geoid] = exact.decimals;
        self.optional(hdop.zip(record.hdop), 4, Writer::decimal);
        self.optional(altitude.zip(record.altitude), 4, Writer::decimal);
        self.optional(geoid.zip(record.geoid), 4, Writer::decimal);
    }

    fn gll(&mut self, record: &Gll, exact: &Exact) {
        self.head(7, exact);
        self.position(record.latitude.zip(record.longitude), exact);
        self.time(record.time);
        self.put(record.status);
        self.put(record.mode.unwrap_or('\0'));
    }

    fn vtg(&mut self, record: &Vtg, exact: &Exact) {
        self.head(8, exact);
        let [course, ..] = exact.decimals;
        self.optional(course.zip(record.course), 4, Writer::decimal);
        let speed = exact.speed.zip(record.speed);
        self.optional(speed, 6, |writer, (speed, knots)| {
            writer.put(speed.unit);
            // The crate has no float of a speed in km/h.
            writer.decimal((speed.written, speed.written.bits));
            writer.put(knots);
        });
    }

    fn time(&mut self, time: Option<Time>) {
        self.optional(time, 4, |writer, time| {
            writer.put(time.hour);
            writer.put(time.minute);
            writer.put(time.second);
            writer.put(time.nanosecond);
        });
    }

    /// The position of these degrees.
    fn position(&mut self, degrees: Option<(F64Bits, F64Bits)>, exact: &Exact) {
        let position = degrees.zip(exact.position);
        self.optional(position, 8, |writer, (degrees, [latitude, longitude])| {
            writer.coordinate(latitude, degrees.0);
            writer.coordinate(longitude, degrees.1);
        });
    }

    fn entry(&mut self, entry: WholeEntry) {
        self.put(entry.satellite);
        for number in [entry.elevation, entry.azimuth, entry.signal] {
            self.optional(number, 1, |writer, number| writer.put(number as u64));
        }
    }

    fn decimal(&mut self, (decimal, bits): (Decimal, u32)) {
        self.put(decimal.minus);
        self.put(decimal.digits);
        self.put(decimal.decimals);
        self.put(bits);
    }

    fn coordinate(&mut self, coordinate: Coordinate, bits: u64) {
        self.put(coordinate.minus);
        self.put(coordinate.count);
        self.put(coordinate.letter);
        self.put(bits);
    }

    fn refusal(&mut self, refusal: &Refusal) {
        self.put(5u8);
        self.put(refusal.number());
        let count = self.at;
        self.at += 1;
        match refusal {
            Refusal::TooLong(length) => self.put(*length as u64),
            Refusal::Checksum { calculated, found } => self.bytes(&[*calculated, *found]),
            Refusal::UnknownTalker(talker) => self.bytes(talker),
            Refusal::SystemMismatch { talker, tail } => {
                self.put(talker.number());
                self.put(tail.number());
            }
            Refusal::WrongHeader { expected, found } => {
                self.bytes(expected);
                self.bytes(found);
            }
            Refusal::BadUtf8
            | Refusal::NotAscii
            | Refusal::Syntax
            | Refusal::UnknownType
            | Refusal::Number
            | Refusal::BadTime => {}
        }
        self.words[count] = (self.at - count - 1) as u64;
    }
}
