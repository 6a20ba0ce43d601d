//! What crate nmea 0.8.0 answers to a line, in the terms of document 01, and
//! whether our proved reader answers the same.
//!
//! The answers are plain values: floats are held by their bits, and no value
//! borrows from the line or has a type of the crate. So an answer that was
//! made in another way can be compared with them by `==`.

mod answer;
mod checksum;
mod compare;
mod exact;
mod expected;
mod fields;
mod gatherer;
mod gga;
mod gll;
mod gsa;
mod gsv;
mod judge;
mod known;
mod lent;
pub mod lines;
mod log;
mod ours;
mod owed;
mod plain;
mod program;
mod readers;
mod refusal;
mod replay;
mod report;
mod rmc;
mod shrink;
mod table;
#[cfg(target_arch = "x86_64")]
mod tables;
mod totals;
mod vtg;
mod words;

pub use answer::{Answer, Class, F32Bits, F64Bits, System, TypeName};
pub use checksum::{checksum, repaired, with_checksum};
pub(crate) use checksum::{hexadecimal, repair};
pub use compare::{compare, Amount, Plan};
pub use exact::{Coordinate, Decimal, Exact, Speed, WholeEntry};
pub use expected::expected;
pub use gatherer::Group;
pub use gga::Gga;
pub use gll::Gll;
pub use gsa::Gsa;
pub use gsv::{Entry, Gsv};
pub use judge::{judge, Domain};
pub use known::KNOWN_TYPES;
pub use lent::{lines_that_leave, plain_gather, Lent, Why};
pub use log::{pieces, stretches, Log, Totals, LONGEST_LOG};
#[cfg(target_arch = "x86_64")]
pub use ours::{linked, linked_fresh, linked_gather, linked_row};
pub use ours::{Ours, Piped, LONGEST_FRAME};
pub use owed::owed;
pub use plain::{is_plain, Limits};
pub use readers::{crate_answer, crate_gga, crate_gll, crate_gsa, crate_gsv, crate_rmc, crate_vtg};
pub use refusal::Refusal;
pub use replay::Replay;
pub use report::{Difference, PartReport, Report, Tally};
pub use rmc::{Date, Rmc, Time};
pub use table::{row_of, row_read, Cell, Gathered, Row, Table};
pub use table::{ABSENT, CELLS, ROW, ROWS, ROW_WORDS, TABLE};
pub use table::{GROUP, NO_GSV, NO_RUN, WAITS};
#[cfg(target_arch = "x86_64")]
pub use tables::{compare_tables, Did, Gather, TablesReport};
#[cfg(target_arch = "x86_64")]
pub use totals::linked_totals;
pub use totals::{totals_of, totals_of_file, Printed};
pub use vtg::Vtg;
pub use words::{answer_of, words_of, OursAnswer, Words, DONE, UNDONE};
