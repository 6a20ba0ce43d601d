use crate::{exact::Exact, owed, Answer, OursAnswer, Refusal};

/// Where a line stands that has the answers it must have.
#[derive(Clone, Copy, Debug, PartialEq, Eq)]
pub enum Domain {
    /// The two sides answer the same.
    Inside,
    /// We answer Number or UnknownType, and the crate in one of the ways that
    /// docs/DIFFERENCES.md lists.
    Outside,
}

/// Holds our answer to a line against the crate's. An error says why the two
/// may not stand together.
///
/// Where the domain ends is not left to our answer: one that is wrongly
/// Number would else be excused, and so would one that accepts, as the crate
/// does, what document 01 refuses.
pub fn judge(line: &[u8], ours: &OursAnswer, theirs: &Answer) -> Result<Domain, String> {
    let owed = owed(line);
    if owed.as_ref() != outside_of(&ours.answer) {
        return Err(match owed {
            Some(refusal) => format!("by the text alone the answer is {refusal:?}"),
            None => "by the text alone the answer is neither Number nor UnknownType".into(),
        });
    }
    if let Some(refusal) = owed {
        return match is_listed(&refusal, theirs) {
            true => Ok(Domain::Outside),
            false => Err("docs/DIFFERENCES.md lists no such class".into()),
        };
    }
    if ours.answer != *theirs {
        return Err("the answers differ".into());
    }
    if let Some(position) = ours.exact.position {
        if !position.iter().all(|coordinate| coordinate.is_near()) {
            return Err("the degrees are not those of the count".into());
        }
    }
    match Exact::expected(line, &ours.answer) {
        Some(expected) if expected == ours.exact => Ok(Domain::Inside),
        expected => Err(format!("the line's text says {expected:?}")),
    }
}

/// The refusal of an answer that puts its line outside the domain.
fn outside_of(answer: &Answer) -> Option<&Refusal> {
    match answer {
        Answer::Refused(refusal @ (Refusal::Number | Refusal::UnknownType)) => Some(refusal),
        _ => None,
    }
}

/// Whether docs/DIFFERENCES.md has the crate answer so where we refuse.
fn is_listed(ours: &Refusal, theirs: &Answer) -> bool {
    match ours {
        Refusal::UnknownType => matches!(
            theirs,
            Answer::Other(_) | Answer::Refused(Refusal::Checksum { .. } | Refusal::Syntax)
        ),
        _ => matches!(
            theirs,
            Answer::Rmc(_)
                | Answer::Gsa(_)
                | Answer::Gga(_)
                | Answer::Gll(_)
                | Answer::Vtg(_)
                | Answer::Refused(Refusal::Syntax | Refusal::SystemMismatch { .. })
        ),
    }
}
