use std::str;

use nmea::{
    parse_bytes, parse_nmea_sentence,
    sentences::{parse_gga, parse_gll, parse_gsa, parse_gsv, parse_rmc, parse_vtg},
    Error, NmeaSentence, ParseResult,
};

use crate::{Answer, Gga, Gll, Gsa, Gsv, Refusal, Rmc, Vtg};

/// The crate's answer to a line, of whatever type it is.
pub fn crate_answer(line: &[u8]) -> Answer {
    match parse_bytes(line) {
        Ok(ParseResult::RMC(data)) => Answer::Rmc(data.into()),
        Ok(ParseResult::GSA(data)) => Answer::Gsa(data.into()),
        Ok(ParseResult::GSV(data)) => Answer::Gsv(data.into()),
        Ok(ParseResult::GGA(data)) => Answer::Gga(data.into()),
        Ok(ParseResult::GLL(data)) => Answer::Gll(data.into()),
        Ok(ParseResult::VTG(data)) => Answer::Vtg(data.into()),
        // The line was framed, so its type stands behind `$` and the talker.
        Ok(ParseResult::Unsupported(_)) | Err(Error::DisabledSentence | Error::Unsupported(_)) => {
            Answer::Other([line[3], line[4], line[5]])
        }
        Ok(data) => panic!("the crate read a type whose feature is off: {data:?}"),
        Err(error) => Answer::Refused(Refusal::of_crate(error)),
    }
}

/// What the crate's reader of RMC alone answers to a line.
pub fn crate_rmc(line: &[u8]) -> Result<Rmc, Refusal> {
    read_one(line, parse_rmc)
}

/// What the crate's reader of GSA alone answers to a line.
pub fn crate_gsa(line: &[u8]) -> Result<Gsa, Refusal> {
    read_one(line, parse_gsa)
}

/// What the crate's reader of GSV alone answers to a line.
pub fn crate_gsv(line: &[u8]) -> Result<Gsv, Refusal> {
    read_one(line, parse_gsv)
}

/// What the crate's reader of GGA alone answers to a line.
pub fn crate_gga(line: &[u8]) -> Result<Gga, Refusal> {
    read_one(line, parse_gga)
}

/// What the crate's reader of GLL alone answers to a line.
pub fn crate_gll(line: &[u8]) -> Result<Gll, Refusal> {
    read_one(line, parse_gll)
}

/// What the crate's reader of VTG alone answers to a line.
pub fn crate_vtg(line: &[u8]) -> Result<Vtg, Refusal> {
    read_one(line, parse_vtg)
}

fn read_one<'a, Data, Record: From<Data>>(
    line: &'a [u8],
    reader: fn(NmeaSentence<'a>) -> Result<Data, Error<'a>>,
) -> Result<Record, Refusal> {
    checked(line)
        .and_then(reader)
        .map(Record::from)
        .map_err(Refusal::of_crate)
}

/// The steps of the crate's `parse_bytes` that come before it chooses a reader.
/// Its readers of one type take a framed sentence and leave them to the caller.
fn checked(line: &[u8]) -> Result<NmeaSentence<'_>, Error<'_>> {
    let text = str::from_utf8(line).map_err(|_| Error::Utf8Decoding)?;
    if !text.is_ascii() {
        return Err(Error::ASCII);
    }
    let sentence = parse_nmea_sentence(text)?;
    let calculated = sentence.calc_checksum();
    if sentence.checksum != calculated {
        return Err(Error::ChecksumMismatch {
            calculated,
            found: sentence.checksum,
        });
    }
    Ok(sentence)
}
