use crate::{
    places::{
        ENTRIES, ENTRY_AZIMUTH, ENTRY_ELEVATION, ENTRY_SATELLITE, ENTRY_SIGNAL, ENTRY_WORDS,
        GSV_ENTRIES, GSV_NUMBER, GSV_SENTENCES, GSV_SYSTEM, GSV_VIEW, TALKER,
    },
    words::{Unfit, Words},
    System, Talker,
};

/// A satellite in view.
#[derive(Clone, Copy, Debug, PartialEq, Eq, Hash)]
pub struct Entry {
    /// The satellite's number.
    pub satellite: u32,
    /// Degrees above the horizon.
    pub elevation: Option<u32>,
    /// Degrees from north.
    pub azimuth: Option<u32>,
    /// Strength of the signal, in dB-Hz.
    pub signal: Option<u32>,
}

/// A GSV sentence: a part of the list of satellites in view.
#[derive(Clone, Copy, Debug, PartialEq, Eq, Hash)]
#[non_exhaustive]
pub struct Gsv {
    /// Who sent it.
    pub talker: Talker,
    /// The system that the talker names.
    pub system: System,
    /// How many sentences the list has.
    pub sentences: u16,
    /// Which of them this is, from 1 on.
    pub number: u16,
    /// How many satellites are in view.
    pub in_view: u16,
    /// Up to four satellites; after an absent one all are absent.
    pub entries: [Option<Entry>; 4],
}

impl Entry {
    pub(crate) fn of(words: &Words, at: usize) -> Result<Self, Unfit> {
        Ok(Entry {
            satellite: words.number(at + ENTRY_SATELLITE)?,
            elevation: words.option(at + ENTRY_ELEVATION)?,
            azimuth: words.option(at + ENTRY_AZIMUTH)?,
            signal: words.option(at + ENTRY_SIGNAL)?,
        })
    }
}

impl Gsv {
    pub(crate) fn of(words: &Words) -> Result<Self, Unfit> {
        let mut entries = [None; ENTRIES];
        for (i, entry) in entries.iter_mut().enumerate() {
            *entry = words.part(GSV_ENTRIES + i * ENTRY_WORDS, Entry::of)?;
        }
        Ok(Gsv {
            talker: Talker::of(words, TALKER)?,
            system: System::of(words, GSV_SYSTEM)?,
            sentences: words.number(GSV_SENTENCES)?,
            number: words.number(GSV_NUMBER)?,
            in_view: words.number(GSV_VIEW)?,
            entries,
        })
    }

    /// The entries that are present, in order.
    pub fn satellites(&self) -> impl Iterator<Item = Entry> + '_ {
        self.entries.iter().flatten().copied()
    }
}
