//! The exported functions as they are: bytes in, numbers out. `docs/ABI.md`
//! says what each word means. All of the crate's `unsafe` is here.
#![allow(unsafe_code)]

/// What a call answers that has written what it must.
pub const DONE: u32 = 0;

/// What a call answers that has written nothing, for want of words or since its table or row is none.
pub const UNDONE: u32 = 255;

/// The words of an answer.
pub const WORDS: usize = 40;

/// The words of a log's totals.
pub const TOTALS: usize = 5;

/// The rows of a table, one for each system.
pub const ROWS: usize = 6;

/// The words of a row where it stands in its table.
pub const ROW: usize = 148;

/// The words of a table.
pub const TABLE: usize = ROWS * ROW;

/// The words of a row that is read.
pub const ROW_WORDS: usize = 293;

/// What [`gather`] answers to a line that is no accepted GSV line.
pub const NO_GSV: u32 = 0;

/// What [`gather`] answers to an accepted GSV line behind which no run stands.
pub const NO_RUN: u32 = 1;

/// What [`gather`] answers to an accepted GSV line whose run waits for the next one.
pub const WAITS: u32 = 2;

/// What [`gather`] answers to one that completes the run of row 0; for the other rows, so much more.
pub const GROUP: u32 = 3;

// A pointer to no bytes may not be null either; Rust's slices have none.
mod c {
    extern "C" {
        pub fn nmea_refusal(line: *const u8, length: usize) -> u32;
        pub fn nmea_answer(line: *const u8, length: usize, words: *mut u64, count: usize) -> u32;
        pub fn nmea_walk(log: *const u8, length: usize, totals: *mut u64, count: usize) -> u32;
        pub fn nmea_fresh(table: *mut u32, table_words: usize) -> u32;
        pub fn nmea_gather(
            line: *const u8,
            length: usize,
            words: *mut u64,
            count: usize,
            table: *mut u32,
            table_words: usize,
        ) -> u32;
        pub fn nmea_row(
            table: *const u32,
            table_words: usize,
            row: usize,
            words: *mut u64,
            count: usize,
        ) -> u32;
    }
}

/// The number of the line's refusal, 0 if it is accepted.
pub fn refusal(line: &[u8]) -> u32 {
    // SAFETY: the pointer is good for reading that many bytes, and the function demands nothing else.
    unsafe { c::nmea_refusal(line.as_ptr(), line.len()) }
}

/// The whole answer to a line, into the first 40 words. [`UNDONE`] where there are fewer.
pub fn answer(line: &[u8], words: &mut [u64]) -> u32 {
    // SAFETY: as above; the words are ours to write, and no bytes of the line.
    unsafe { c::nmea_answer(line.as_ptr(), line.len(), words.as_mut_ptr(), words.len()) }
}

/// A log's totals, into the first five words. [`UNDONE`] where there are fewer; 12 for a log over 65,536 bytes, and
/// nothing written.
pub fn walk(log: &[u8], totals: &mut [u64]) -> u32 {
    // SAFETY: as above.
    unsafe { c::nmea_walk(log.as_ptr(), log.len(), totals.as_mut_ptr(), totals.len()) }
}

/// Makes a table of 888 words fresh: no run stands in it. [`UNDONE`] where it has another length.
pub fn fresh(table: &mut [u32]) -> u32 {
    // SAFETY: as above, for the table's words.
    unsafe { c::nmea_fresh(table.as_mut_ptr(), table.len()) }
}

/// Takes a log's next line: its whole answer into the first 40 words, and what it does to the table: [`NO_GSV`],
/// [`NO_RUN`], [`WAITS`], or [`GROUP`] and the row's number, and that row is a group. [`UNDONE`] where there are fewer
/// words, or the table has not 888.
pub fn gather(line: &[u8], words: &mut [u64], table: &mut [u32]) -> u32 {
    // SAFETY: as above, for the line, the words and the table, of which no two overlap.
    unsafe {
        c::nmea_gather(
            line.as_ptr(),
            line.len(),
            words.as_mut_ptr(),
            words.len(),
            table.as_mut_ptr(),
            table.len(),
        )
    }
}

/// Reads a row of a table into the first 293 words. [`UNDONE`] where there are fewer words, the table has not 888 or no
/// such row, or the row's count is over 36.
pub fn row(table: &[u32], row: usize, words: &mut [u64]) -> u32 {
    // SAFETY: as above; the table is read alone.
    unsafe {
        c::nmea_row(
            table.as_ptr(),
            table.len(),
            row,
            words.as_mut_ptr(),
            words.len(),
        )
    }
}
