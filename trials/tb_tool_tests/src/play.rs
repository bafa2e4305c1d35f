//! Dialogues with a program that sends what is typed, and key files.
mod dialogues;
mod records;
