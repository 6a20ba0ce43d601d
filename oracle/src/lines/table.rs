//! Tables that are lent with any words, and lines for them.

use super::{draft::put_whole, random::Random, Generator};
use crate::{
    checksum, hexadecimal,
    known::{LONGEST, TALKERS},
    table::{ABSENT, CELLS, ROW, ROWS},
    Table,
};

/// In-view counts around a change of their digits, and the largest.
const IN_VIEW: [u32; 10] = [0, 8, 9, 10, 12, 99, 100, 9_999, 10_000, 65_535];

/// Words that stand for no run, in one place or another.
const ODD: [u32; 12] = [
    0,
    1,
    9,
    10,
    36,
    37,
    65_536,
    i32::MAX as u32,
    1 << 31,
    ABSENT - 1,
    ABSENT,
    ABSENT,
];

/// The bytes of a line without the digits of its in-view count and its entries.
const BESIDE: usize = "$GPGSV,2,1,,*hh".len();

/// The digits of an entry's four numbers, 0 of one that is absent.
type Widths = [usize; 4];

/// Tables and lines without end, made from a seed.
pub struct TableGenerator {
    random: Random,
    others: Generator,
    line: Vec<u8>,
    /// The row of the line before.
    row: usize,
}

impl TableGenerator {
    pub fn new(seed: u64) -> Self {
        TableGenerator {
            random: Random::new(seed, 0),
            others: Generator::new(seed),
            line: vec![],
            row: 0,
        }
    }

    /// Fills a table. Of its rows some stand for a run, some nearly do, and
    /// some have words of any kind.
    pub fn fill(&mut self, table: &mut Table) {
        for row in table.chunks_exact_mut(ROW) {
            self.noise(row);
            match self.random.below(16) {
                0 => {}
                1 => row[1] = 0,
                2..=8 => self.run(row),
                _ => {
                    self.run(row);
                    self.spoil(row);
                }
            }
        }
    }

    /// Words of any kind, most of which fit a cell.
    fn noise(&mut self, words: &mut [u32]) {
        for word in words {
            let bits = self.random.below(1 << 32) as u32;
            *word = match bits % 32 {
                0 => ODD[bits as usize / 32 % ODD.len()],
                1 => bits,
                digits => bits >> digits,
            };
        }
    }

    /// A row that lines leave, or that needs a byte more than they have.
    fn run(&mut self, row: &mut [u32]) {
        let random = &mut self.random;
        let sentences = random.between(2, 9);
        // With few lines there is no other cut of the satellites.
        let waits_for = match random.below(3) {
            0 => 2,
            1 => random.between(2, sentences.min(3)),
            _ => random.between(2, sentences),
        };
        let in_view = random.pick(&IN_VIEW);
        let room = BESIDE + in_view.to_string().len();
        let is_full = random.one_in(2);
        let widest = random.pick(&[2, 3, 6, 10]);
        let mut count = 0;
        for _ in 1..waits_for {
            let entries = match is_full {
                true => random.pick(&[2, 3, 4, 4, 4]),
                false => random.pick(&[0, 1, 2, 3, 4, 4, 4]),
            };
            let mut widths = [[0; 4]; 4];
            for widths in &mut widths[..entries] {
                *widths = [(); 4].map(|()| random.below(widest + 1));
                widths[0] = widths[0].max(1);
            }
            let widths = &mut widths[..entries];
            let length = match is_full {
                true => random.pick(&[101, 102, 102, 102, 103]),
                false => random.between(room, LONGEST),
            };
            stretch(random, widths, room, length, is_full);
            for widths in widths {
                put_cell(random, &mut row[4 + 4 * count..], widths);
                count += 1;
            }
        }
        row[..4].copy_from_slice(&[sentences as u32, waits_for as u32, in_view, count as u32]);
    }

    /// Puts a word into a row that takes it out of its bounds, or to their edge.
    fn spoil(&mut self, row: &mut [u32]) {
        let random = &mut self.random;
        let near = |random: &mut Random, word: u32| match random.below(4) {
            0 => word.wrapping_add(1),
            1 => word.wrapping_sub(1),
            _ => random.pick(&ODD),
        };
        match random.below(8) {
            0 => row[0] = near(random, row[0]),
            1 => row[1] = near(random, row[1]),
            2 => row[1] = row[0].wrapping_add(random.below(2) as u32),
            3 => row[2] = random.pick(&[65_535, 65_536, ABSENT]),
            4 => row[3] = near(random, row[3]),
            5 => row[3] = row[3].wrapping_add(random.pick(&[1 << 8, 1 << 16, 1 << 31])),
            _ => {
                let used = (row[3] as usize).clamp(1, CELLS);
                let cell = random.below(used);
                row[4 + 4 * cell + random.below(4)] = random.pick(&ODD);
            }
        }
    }

    /// The next line for a table, in a buffer that is used again.
    pub fn line(&mut self, table: &Table) -> &[u8] {
        if self.random.one_in(16) {
            return self.others.line();
        }
        if self.random.one_in(3) {
            self.row = self.random.below(ROWS);
        }
        let row = &table[self.row * ROW..][..3];
        let (mut sentences, mut number, mut in_view) = (row[0], row[1], row[2]);
        let random = &mut self.random;
        match random.below(16) {
            // A start, or a start of too many.
            0 => {
                sentences = random.between(0, 10) as u32;
                number = 1;
                in_view = random.pick(&IN_VIEW);
            }
            1 => number = 1,
            2 => sentences = sentences.wrapping_add(1),
            3 => number = number.wrapping_add(1),
            4 => number = number.wrapping_sub(1),
            5 => in_view = in_view.wrapping_sub(1),
            6 => number = sentences,
            7 => number = sentences.wrapping_add(1),
            8 => (sentences, number) = (random.below(12) as u32, random.below(12) as u32),
            // As the row says, whatever that is.
            _ => {}
        }
        self.line.clear();
        self.sentence([sentences, number, in_view]);
        if self.random.one_in(24) {
            // A byte falls over.
            let at = self.random.below(self.line.len());
            self.line[at] ^= 1;
        }
        &self.line
    }

    /// A sentence of the row's system, with these counts.
    fn sentence(&mut self, counts: [u32; 3]) {
        let TableGenerator {
            random, line, row, ..
        } = self;
        line.push(b'$');
        line.extend_from_slice(random.pick(TALKERS[*row]).as_bytes());
        line.extend_from_slice(b"GSV");
        for count in counts {
            line.push(b',');
            put_whole(line, count.into(), random.pick(&[1, 1, 2]));
        }
        line.push(b',');
        let widest = random.pick(&[1, 3, 3, 3, 5, 10]);
        let entries = random.below(5);
        for entry in 0..entries {
            let mut cell = [0; 4];
            let mut widths = [(); 4].map(|()| random.below(widest + 1));
            widths[0] = widths[0].max(1);
            put_cell(random, &mut cell, &widths);
            for (place, number) in cell.into_iter().enumerate() {
                if entry + place > 0 {
                    line.push(b',');
                }
                if place == 0 || number != ABSENT {
                    put_whole(line, number.into(), 1);
                }
            }
        }
        let sum = checksum(&line[1..]);
        line.push(b'*');
        line.extend(hexadecimal(sum));
    }
}

/// Makes a line of these entries longer or shorter, up to a length; only
/// shorter, where it need not be full.
fn stretch(random: &mut Random, entries: &mut [Widths], room: usize, length: usize, is_full: bool) {
    if entries.is_empty() {
        return;
    }
    let commas = 4 * entries.len() - 1;
    let mut now = room + commas + entries.iter().flatten().sum::<usize>();
    // A line that its entries cannot fill, or that they overfill, is left after some tries.
    for _ in 0..400 {
        if now == length || (now < length && !is_full) {
            return;
        }
        let entry = random.below(entries.len());
        let place = random.below(4);
        let width = &mut entries[entry][place];
        let least = usize::from(place == 0);
        if now < length && *width < 10 {
            *width += 1;
            now += 1;
        } else if now > length && *width > least {
            *width -= 1;
            now -= 1;
        }
    }
}

/// Writes a cell whose numbers have these digits.
fn put_cell(random: &mut Random, cell: &mut [u32], widths: &Widths) {
    for (place, (word, &width)) in cell.iter_mut().zip(widths).enumerate() {
        let most = if place == 0 {
            u32::MAX
        } else {
            i32::MAX as u32
        };
        *word = match width {
            0 => ABSENT,
            _ => number(random, width as u32, most),
        };
    }
}

/// A number of so many digits, often the least or the largest.
fn number(random: &mut Random, width: u32, most: u32) -> u32 {
    let least = if width == 1 { 0 } else { 10u32.pow(width - 1) };
    let most = 10u32.checked_pow(width).map_or(most, |over| over - 1);
    match random.below(8) {
        0 => least,
        1 | 2 => most,
        _ => random.between(least as usize, most as usize) as u32,
    }
}
