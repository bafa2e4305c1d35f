//! The debug adapter: each request in each state of its life, whole sessions, streams that fail or are cut off, a machine
//! that goes wrong.

mod arguments;
mod messages;
mod sessions;
mod signs;
mod states;
mod support;
mod typing;
mod wrong;
