//! Keyboards of machines.
use std::alloc::{AllocError, Global};
use tb_kernal::Keyboard;

/// A keyboard on which nothing is typed, and that answers no poll.
pub fn no_keys(alloc: Global) -> Keyboard {
    Keyboard {
        text: Vec::new(alloc),
        answers: Vec::new(alloc),
    }
}

/// A keyboard with this text and these answers to its polls, in order. Fails only if memory runs out.
pub fn keyboard_of(alloc: Global, text: &[u8], answers: &[u8]) -> Result<Keyboard, AllocError> {
    Ok(Keyboard {
        text: Vec::from_slice(alloc, text)?,
        answers: Vec::from_slice(alloc, answers)?,
    })
}
