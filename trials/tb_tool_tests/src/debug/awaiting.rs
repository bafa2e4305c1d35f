//! A reader that awaits the answers to a dialogue's commands, and the writer that it watches.
use std::cell::Cell;
use std::io;
use std::io::{Read, Write};

/// Takes all bytes, and shows how many of them it has handed on: those before its last flush.
#[derive(Drop)]
pub struct WatchedWriter<'a> {
    pub taken: Vec<u8>,
    pub handed_on: &'a Cell<usize>,
}

impl Write for WatchedWriter<'_> {
    fn write(&mut self, buf: &[u8]) -> io::Result<usize> {
        self.taken.extend_from_slice(buf)?;
        Ok(buf.len())
    }

    fn flush(&mut self) -> io::Result<()> {
        self.handed_on.set(self.taken.len());
        Ok(())
    }
}

/// Gives the commands of a dialogue, a byte at a time. It fails if a command is asked for and not exactly the answers
/// before it are handed on.
#[derive(Drop)]
pub struct AwaitingReader<'a> {
    /// What is still to be given of a command.
    pub command: &'a [u8],
    /// The dialogue after it: each command follows `> `, and the other lines are answered.
    pub dialogue: &'a [u8],
    /// How many bytes the answers so far have.
    pub answered: usize,
    pub handed_on: &'a Cell<usize>,
}

// The first line of a text with its end, and what comes after it.
fn first_line(text: &[u8]) -> (&[u8], &[u8]) {
    match text.iter().position(|byte| *byte == b'\n') {
        Some(end) => text.split_at(end + 1),
        None => (text, &[]),
    }
}

impl AwaitingReader<'_> {
    // Goes on to the next command, or to the end.
    fn next_command(&mut self) {
        for _ in 0..self.dialogue.len() {
            let (line, after) = first_line(self.dialogue);
            self.dialogue = after;
            if let Some(command) = line.strip_prefix(b"> ") {
                self.command = command;
                return;
            }
            self.answered = self.answered.saturating_add(line.len());
        }
    }
}

impl Read for AwaitingReader<'_> {
    fn read(&mut self, buf: &mut [u8]) -> io::Result<usize> {
        if self.command.is_empty() {
            self.next_command();
            if self.handed_on.get() != self.answered {
                return Err(io::Error::from(io::ErrorKind::Other));
            }
        }
        self.command.read(buf)
    }
}
