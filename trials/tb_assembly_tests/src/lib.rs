//! The tests of assembler texts, label files and listings for other assemblers: files that fail in mid-stream, a line as
//! long as a file may be, worked rows, whole listings, and streams that fail. There is nothing else in this crate.
#![tactic(auto)]

#[cfg(test)]
mod dialects;
#[cfg(test)]
mod files;
#[cfg(test)]
mod labels;
#[cfg(test)]
mod texts;
