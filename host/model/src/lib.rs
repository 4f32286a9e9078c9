//! A plain model of the virtual GICv3: the rules of document 01 on a struct of fields.
//!
//! Every call answers a number from 0 up, or a negative errno. A refused call changes nothing.
//! `Device::from_words` decides whether words are a sound state; the calls assume their fields.

#![forbid(unsafe_code)]

mod attributes;
mod bank;
mod calls;
mod interface;
mod record;
mod refusal;
mod registers;
mod state;
mod words;

pub use state::Device;
pub use words::WORDS;
