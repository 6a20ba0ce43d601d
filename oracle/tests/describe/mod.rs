//! Answers in the words of docs/DIFFERENCES.md and docs/ODD-READINGS.md.

use oracle::{Answer, Entry, Gga, Gll, Gsa, Gsv, Refusal, Rmc, Time, Vtg};

/// An answer as the document writes it.
pub fn describe(answer: &Answer) -> String {
    match answer {
        Answer::Rmc(record) => format!("accepts: {}", describe_rmc(record)),
        Answer::Gsa(record) => format!("accepts: {}", describe_gsa(record)),
        Answer::Gsv(record) => format!("accepts: {}", describe_gsv(record)),
        Answer::Gga(record) => format!("accepts: {}", describe_gga(record)),
        Answer::Gll(record) => format!("accepts: {}", describe_gll(record)),
        Answer::Vtg(record) => format!("accepts: {}", describe_vtg(record)),
        Answer::Other(name) => format!("accepts: Other {}", name.escape_ascii()),
        Answer::Refused(refusal) => format!("refuses: {}", describe_refusal(refusal)),
    }
}

/// The fields that are present.
fn listed<const N: usize>(fields: [Option<String>; N]) -> String {
    let present: Vec<String> = fields.into_iter().flatten().collect();
    if present.is_empty() {
        "every field that may be absent is".into()
    } else {
        present.join(", ")
    }
}

fn f32_field(name: &str, bits: Option<u32>) -> Option<String> {
    bits.map(|bits| format!("{name} {:?}", f32::from_bits(bits)))
}

fn f64_field(name: &str, bits: Option<u64>) -> Option<String> {
    bits.map(|bits| format!("{name} {:?}", f64::from_bits(bits)))
}

fn time_field(time: Option<Time>) -> Option<String> {
    time.map(|time| {
        format!(
            "time {:02}:{:02}:{:02} and {} ns",
            time.hour, time.minute, time.second, time.nanosecond
        )
    })
}

fn describe_rmc(record: &Rmc) -> String {
    let fields = [
        time_field(record.time),
        f64_field("latitude", record.latitude),
        f64_field("longitude", record.longitude),
        f32_field("speed", record.speed),
        f32_field("course", record.course),
        record
            .date
            .map(|date| format!("date {}-{:02}-{:02}", date.year, date.month, date.day)),
        f32_field("variation", record.variation),
        record.mode.map(|letter| format!("mode {letter}")),
        record.navigation.map(|letter| format!("status {letter}")),
    ];
    listed(fields)
}

fn describe_gsa(record: &Gsa) -> String {
    let satellites =
        (!record.satellites.is_empty()).then(|| format!("satellites {:?}", record.satellites));
    let fields = [
        satellites,
        f32_field("PDOP", record.pdop),
        f32_field("HDOP", record.hdop),
        f32_field("VDOP", record.vdop),
        record.system.map(|system| format!("system {system:?}")),
    ];
    listed(fields)
}

fn describe_gga(record: &Gga) -> String {
    let satellites = record.satellites.map(|count| format!("satellites {count}"));
    listed([
        time_field(record.time),
        f64_field("latitude", record.latitude),
        f64_field("longitude", record.longitude),
        satellites,
        f32_field("HDOP", record.hdop),
        f32_field("altitude", record.altitude),
        f32_field("geoid separation", record.geoid),
    ])
}

fn describe_gll(record: &Gll) -> String {
    listed([
        f64_field("latitude", record.latitude),
        f64_field("longitude", record.longitude),
        time_field(record.time),
        record.mode.map(|letter| format!("mode {letter}")),
    ])
}

fn describe_vtg(record: &Vtg) -> String {
    listed([
        f32_field("course", record.course),
        f32_field("speed", record.speed),
    ])
}

fn describe_gsv(record: &Gsv) -> String {
    let head = format!(
        "{:?}, {} of {}, {} in view",
        record.system, record.number, record.sentences, record.in_view
    );
    let entries = record.entries.iter().flatten().map(describe_entry);
    [head]
        .into_iter()
        .chain(entries)
        .collect::<Vec<_>>()
        .join("; ")
}

fn describe_entry(entry: &Entry) -> String {
    let field =
        |name, bits: Option<u32>| bits.map(|bits| format!(" {name} {}", f32::from_bits(bits)));
    let fields = [
        field("elevation", entry.elevation),
        field("azimuth", entry.azimuth),
        field("signal", entry.signal),
    ];
    let fields: String = fields.into_iter().flatten().collect();
    format!("satellite {}{fields}", entry.satellite)
}

pub fn describe_refusal(refusal: &Refusal) -> String {
    let number = refusal.number();
    match refusal {
        Refusal::Syntax => format!("{number} Syntax"),
        Refusal::UnknownType => format!("{number} UnknownType"),
        Refusal::Number => format!("{number} Number"),
        Refusal::Checksum { calculated, found } => {
            format!("{number} Checksum ({calculated}, {found})")
        }
        Refusal::SystemMismatch { talker, tail } => {
            format!("{number} SystemMismatch ({talker:?}, {tail:?})")
        }
        Refusal::WrongHeader { expected, found } => format!(
            "{number} WrongHeader ({}, {})",
            expected.escape_ascii(),
            found.escape_ascii()
        ),
        other => format!("{number} {other:?}"),
    }
}
