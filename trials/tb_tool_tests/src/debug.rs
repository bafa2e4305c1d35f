//! The debugger: dialogues, streams that fail, and walks both ways, compared with the interpreter.
mod awaiting;
mod dialogues;
mod prgs;
mod programs;
mod stops;
mod streams;
mod walks;
