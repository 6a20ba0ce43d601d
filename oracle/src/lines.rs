//! The lines that both sides are asked.

mod batch;
mod corpus;
mod damage;
mod draft;
mod exhaustive;
mod generator;
mod gga;
mod gll;
mod gsa;
mod gsv;
mod log;
mod part;
mod random;
mod rmc;
mod sentence;
mod table;
mod texts;
mod vtg;
mod worked;

pub use batch::Batch;
pub use corpus::{corpus, corpus_lines, CorpusLog};
pub use exhaustive::exhaustive_parts;
pub use generator::Generator;
pub use log::generated_log;
pub use part::Part;
pub(crate) use part::BLOCK;
pub use table::TableGenerator;
pub use worked::{comment_lines, worked_lines};
