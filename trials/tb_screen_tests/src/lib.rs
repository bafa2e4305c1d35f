//! The tests of playing on the machine's screen: dialogues, over readers and writers that fail, hand on few bytes at a
//! time, and count. There is nothing else in this crate.
#![tactic(auto)]

#[cfg(test)]
mod dialogues;
