//! The calls as values, and random sessions of them.
//!
//! [`Call`] is one call with its numbers: it can be made on the plain model and on the library, and written as a line of
//! text. [`Session`] leads random devices through their lives on whatever takes calls, which is a [`Subject`].

#![forbid(unsafe_code)]

mod call;
mod generate;
mod moves;
mod numbers;
mod random;
mod records;
mod session;
mod states;
mod subject;
mod tally;
mod view;

pub use call::{hex, Call, KINDS};
pub use generate::{Phase, LONGEST_RECORD};
pub use moves::listed;
pub use numbers::{FLAG_REGISTERS, READ_ONLY, STORED, WRITE_ONLY};
pub use random::Random;
pub use records::{groups, numbers, record};
pub use session::Session;
pub use subject::{Compared, Difference, Subject};
pub use tally::{Event, Tally};
pub use view::{fresh_words, View, BANK, BLOCK, FIRST_BLOCK, FIRST_ROUTE, FIRST_SPI_BANK};
