use crate::{
    abi::{self, ROW_WORDS},
    places::{ENTRY_WORDS, ROW_COUNT, ROW_ENTRIES, ROW_SENTENCES, ROW_SYSTEM, ROW_VIEW},
    words::{Unfit, Words},
    Entry, System,
};

/// The satellites that one system has in view: a whole list, from sentences
/// that stood in the log complete and in order. Proved code puts it together.
#[derive(Clone, Debug, PartialEq, Eq, Hash)]
#[non_exhaustive]
pub struct Group {
    /// The system; its talkers count together.
    pub system: System,
    /// How many sentences the list had, 1 to 9.
    pub sentences: u16,
    /// How many satellites are in view, as each of the sentences says.
    pub in_view: u16,
    /// The entries that were present, in order, at most 36.
    pub entries: Vec<Entry>,
    /// The numbers of the lines that the sentences stood in, from 1 on.
    pub lines: Vec<u64>,
}

impl Group {
    /// The most sentences that a group may have.
    pub const SENTENCES: usize = 9;

    /// The most entries that a group may have.
    pub const ENTRIES: usize = 36;

    /// The group that a row of the table is; the lines are those of its sentences, from the first on.
    pub(crate) fn of(table: &[u32], row: usize, lines: &[u64]) -> Result<Self, Unfit> {
        let mut words = [0; ROW_WORDS];
        // Undone it is only for a row that no line completed, and then the system is unfit.
        abi::row(table, row, &mut words);
        let words = Words(&words);
        let sentences = words.number(ROW_SENTENCES)?;
        let count: usize = words.number(ROW_COUNT)?;
        if count > Group::ENTRIES {
            return Err(words.unfit(ROW_COUNT));
        }
        let entries = (0..count).map(|i| words.part(ROW_ENTRIES + i * ENTRY_WORDS, Entry::of));
        Ok(Group {
            system: System::of(&words, ROW_SYSTEM)?,
            sentences,
            in_view: words.number(ROW_VIEW)?,
            entries: entries
                .flat_map(Result::transpose)
                .collect::<Result<_, _>>()?,
            lines: lines
                .get(..sentences.into())
                .ok_or_else(|| words.unfit(ROW_SENTENCES))?
                .to_vec(),
        })
    }
}
