//! Cases for the definitions written in antt: questions with this reference's answers, each stated
//! as an equation that the definitions, computed, must meet.

mod columns;
mod counts;
mod heat_statement;
mod heats;
mod host_statement;
mod literal;
mod marks;
mod means;
mod pick;
mod question;
mod sent;
mod statement;
mod tally;
mod texts;
mod value;
mod write;

pub use tally::Tally;
pub use write::write_crate;
