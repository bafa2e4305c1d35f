//! What is written.
use std::alloc::Global;
use std::fmt::{Debug, Display};

/// A text that grows. What fails on the way is noted (a growth is refused, a row says nothing), so that those who write
/// need not hand failures on: the prover pays for each way out of a function.
#[derive(Drop)]
pub struct Page {
    text: String,
    has_failed: bool,
}

impl Page {
    /// A page on which nothing is written.
    pub fn new(alloc: Global) -> Page {
        Page {
            text: String::new(alloc),
            has_failed: false,
        }
    }

    /// The allocator of its text.
    pub fn alloc(&self) -> Global {
        *self.text.allocator()
    }

    /// All that was written.
    pub fn text(&self) -> &str {
        self.text.as_str()
    }

    /// Whether anything has failed so far.
    pub fn has_failed(&self) -> bool {
        self.has_failed
    }

    /// Notes that a row has no answer.
    pub fn fail(&mut self) {
        self.has_failed = true;
    }

    // Notes if a growth is refused.
    fn note<E: Drop>(&mut self, grown: Result<(), E>) {
        self.has_failed = self.has_failed || grown.is_err();
    }

    /// What an answer holds. Notes if it is a refusal.
    pub fn held<T: Drop, E: Drop>(&mut self, answer: Result<T, E>) -> Option<T> {
        match answer {
            Ok(value) => Some(value),
            Err(_) => {
                self.fail();
                None
            }
        }
    }

    /// Appends a value as `Display` shows it. A call takes the prover a fraction of what a `format_args!` takes.
    pub fn put<D: Display + Drop>(&mut self, shown: D) {
        let grown = write!(self.text, "{shown}");
        self.note(grown);
    }

    /// Appends a value as its type writes it for programmers.
    pub fn put_debug<D: Debug>(&mut self, shown: &D) {
        let grown = write!(self.text, "{shown:?}");
        self.note(grown);
    }

    /// Appends a part of an answer: a space, and a value as its type writes it for programmers.
    pub fn put_part<D: Debug>(&mut self, shown: &D) {
        self.put(" ");
        self.put_debug(shown);
    }

    /// Appends why a call of a layer has no answer.
    pub fn put_refusal<E: Debug>(&mut self, layer: &'static str, error: &E) {
        self.put(layer);
        self.put("(");
        self.put_debug(error);
        self.put(")");
    }

    /// Appends a word as four hexadecimal digits.
    pub fn put_word(&mut self, word: u16) {
        let grown = write!(self.text, "{word:04X}");
        self.note(grown);
    }

    /// Appends a word as four hexadecimal digits in small letters.
    pub fn put_low_word(&mut self, word: u16) {
        let grown = write!(self.text, "{word:04x}");
        self.note(grown);
    }

    /// Appends a byte as two hexadecimal digits.
    pub fn put_byte(&mut self, byte: u8) {
        let grown = write!(self.text, "{byte:02X}");
        self.note(grown);
    }

    /// Appends a byte as two hexadecimal digits in small letters.
    pub fn put_low_byte(&mut self, byte: u8) {
        let grown = write!(self.text, "{byte:02x}");
        self.note(grown);
    }

    /// Appends after how many bytes a stream fails, and how many it hands on at once.
    pub fn put_fault(&mut self, until_fault: usize, most: usize) {
        self.put(until_fault);
        self.put(", ");
        self.put(most);
        self.put(" at once");
    }

    /// Appends bytes of ASCII as they are.
    pub fn put_ascii(&mut self, bytes: &[u8]) {
        for byte in bytes {
            let grown = self.text.push(char::from(*byte));
            self.note(grown);
        }
    }
}
