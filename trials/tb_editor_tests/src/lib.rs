//! The tests of what editors call: frames over streams that fail or are cut off, and dialogues with the language server
//! and with the debug adapter. There is nothing else in this crate.
#![tactic(auto)]

#[cfg(test)]
mod adapter;
#[cfg(test)]
mod adapter_messages;
#[cfg(test)]
mod completions;
#[cfg(test)]
mod dialogues;
#[cfg(test)]
mod fixes;
#[cfg(test)]
mod frames;
#[cfg(test)]
mod renames;
#[cfg(test)]
mod requests;
#[cfg(test)]
mod signs;
