//! The tests of sources that get other line numbers, of sources with signs, and of what
//! sources ask for by their own words: worked rows, whole outputs, refusals,
//! streams that fail, and generated ones. There is nothing else in this crate.
#![tactic(auto)]

#[cfg(test)]
mod notation;
#[cfg(test)]
mod own;
#[cfg(test)]
mod renumber;
#[cfg(test)]
mod signs;
