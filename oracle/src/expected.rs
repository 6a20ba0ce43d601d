use crate::{crate_answer, owed, Answer, Exact, OursAnswer};

/// What document 01 answers to a line, made without our reader: Number or
/// UnknownType where the text alone says so, else the crate's answer, and what
/// only our answers have from the text.
///
/// # Panics
///
/// If the crate accepts a line whose text has no such parts.
pub fn expected(line: &[u8]) -> OursAnswer {
    let answer = match owed(line) {
        Some(refusal) => Answer::Refused(refusal),
        None => crate_answer(line),
    };
    let exact = Exact::expected(line, &answer)
        .unwrap_or_else(|| panic!("no exact parts in \"{}\"", line.escape_ascii()));
    OursAnswer { answer, exact }
}
