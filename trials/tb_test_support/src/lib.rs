//! What tests and measures share: keyboards, readers and writers that fail in mid-stream, and a file that does.
#![tactic(auto)]

mod files;
mod keyboards;
mod streams;

pub use files::Shelf;
pub use keyboards::{keyboard_of, no_keys};
pub use streams::{CountingWriter, FailingReader, FailingWriter, HoldingWriter};
