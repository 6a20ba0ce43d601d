//! Where document 01 answers Number or UnknownType, decided from the text of
//! the line alone: neither of the two sides is asked.

mod cursor;

use cursor::{Cursor, Fault};

use crate::{
    checksum,
    known::{has_unknown_type, LONGEST},
    Limits, Refusal,
};

/// Number or UnknownType, if document 01 answers one of them to the line.
pub fn owed(line: &[u8]) -> Option<Refusal> {
    if has_unknown_type(line) {
        return Some(Refusal::UnknownType);
    }
    let (name, data) = framed(line)?;
    let data = Cursor::new(data);
    let read = match name {
        "RMC" => rmc(data),
        "GSA" => gsa(data),
        "GGA" => gga(data),
        "GLL" => gll(data),
        "VTG" => vtg(data),
        _ => Ok(()),
    };
    (read == Err(Fault::Number)).then_some(Refusal::Number)
}

/// The type and the data of a line whose frame and checksum are right.
fn framed(line: &[u8]) -> Option<(&str, &str)> {
    let text = std::str::from_utf8(line).ok()?;
    if !text.is_ascii() || text.len() > LONGEST || !text.starts_with('$') {
        return None;
    }
    let (data, end) = text.get(6..)?.strip_prefix(',')?.split_once('*')?;
    let [first, second, ..] = *end.as_bytes() else {
        return None;
    };
    let digit = |byte: u8| char::from(byte).to_digit(16);
    let high = if first == b'+' { 0 } else { digit(first)? };
    let found = 16 * high + digit(second)?;
    let calculated = checksum(&line[1..7 + data.len()]);
    (found == calculated.into()).then_some((&text[3..6], data))
}

/// RMC up to its last decimal, the variation.
fn rmc(mut data: Cursor) -> Result<(), Fault> {
    time(&mut data)?;
    data.comma()?;
    data.one_of("ADV")?;
    data.comma()?;
    position(&mut data)?;
    data.comma()?;
    data.decimal(Limits::Short)?;
    data.comma()?;
    data.decimal(Limits::Short)?;
    data.comma()?;
    if !data.is_at_comma() {
        let (day, month, year) = (data.number(2)?, data.number(2)?, data.number(2)?);
        in_range((1..=days(month, year)).contains(&day))?;
    }
    data.comma()?;
    if !data.is_at_comma() {
        data.filled(Limits::Short)?;
    }
    Ok(())
}

/// GSA up to its last decimal, VDOP.
fn gsa(mut data: Cursor) -> Result<(), Fault> {
    data.one_of("MA")?;
    data.comma()?;
    data.one_of("123")?;
    data.comma()?;
    if data.is_commas_and_system() {
        return Ok(());
    }
    while data.eats_item() {}
    data.filled(Limits::Short)?;
    data.comma()?;
    data.filled(Limits::Short)?;
    data.comma()?;
    data.filled(Limits::Short)?;
    Ok(())
}

/// GGA up to its last decimal, the geoid separation.
fn gga(mut data: Cursor) -> Result<(), Fault> {
    time(&mut data)?;
    data.comma()?;
    position(&mut data)?;
    data.comma()?;
    data.one_of("012345678")?;
    data.comma()?;
    // The number of satellites or nothing.
    data.eats_item().then_some(()).ok_or(Fault::Syntax)?;
    data.decimal(Limits::Short)?;
    data.comma()?;
    data.decimal(Limits::Short)?;
    data.comma()?;
    data.eats("M");
    data.comma()?;
    data.decimal(Limits::Short)?;
    Ok(())
}

/// GLL up to its last decimal, the seconds.
fn gll(mut data: Cursor) -> Result<(), Fault> {
    position(&mut data)?;
    data.comma()?;
    time(&mut data)
}

/// VTG up to its last decimal, the speed in km/h.
fn vtg(mut data: Cursor) -> Result<(), Fault> {
    for letter in ["T", "M"] {
        data.decimal(Limits::Short)?;
        data.comma()?;
        data.eats(letter);
        data.comma()?;
    }
    data.decimal(Limits::Short)?;
    data.comma()?;
    data.eats("N");
    data.decimal(Limits::Short)?;
    Ok(())
}

/// A time, or nothing before a comma.
fn time(data: &mut Cursor) -> Result<(), Fault> {
    if data.is_at_comma() {
        return Ok(());
    }
    let (hour, minute) = (data.number(2)?, data.number(2)?);
    let seconds = data.filled(Limits::Long)?;
    let whole = seconds.split('.').next().unwrap_or_default();
    // No unsigned number has a minus: signed seconds are Syntax, minus zero too.
    let second: u16 = whole.parse().map_err(|_| Fault::Syntax)?;
    in_range(hour < 24 && minute < 60 && second < 60)
}

/// A position, or the three commas of an absent one.
fn position(data: &mut Cursor) -> Result<(), Fault> {
    if data.eats(",,,") {
        return Ok(());
    }
    data.number(2)?;
    data.filled(Limits::Long)?;
    data.comma()?;
    data.one_of("NS")?;
    data.comma()?;
    data.number(3)?;
    data.filled(Limits::Long)?;
    data.comma()?;
    data.one_of("EW")
}

fn in_range(is_in_range: bool) -> Result<(), Fault> {
    is_in_range.then_some(()).ok_or(Fault::Syntax)
}

/// How many days a month has, 0 if there is no such month. Of the years 1983
/// to 2082 each fourth is a leap year, 2000 too.
fn days(month: u8, year: u8) -> u8 {
    match month {
        2 if year.is_multiple_of(4) => 29,
        2 => 28,
        4 | 6 | 9 | 11 => 30,
        1..=12 => 31,
        _ => 0,
    }
}
