//! The tests of what users call: playing, debugging, disks, listings, profiles, web pages, transcripts, engines over
//! streams that fail or are cut off, and which words become which job. There is nothing else in this crate, as in
//! tb_tests, which is proved beside it.
#![tactic(auto)]

#[cfg(test)]
mod cut;
#[cfg(test)]
mod debug;
#[cfg(test)]
mod disk;
#[cfg(test)]
mod listing;
#[cfg(test)]
mod pages;
#[cfg(test)]
mod play;
#[cfg(test)]
mod profile;
#[cfg(test)]
mod transcripts;
#[cfg(test)]
mod words;
#[cfg(test)]
mod written;
