//! Texts of the grammar, by choices that a seed determines.
use crate::generated::grammar::{AGAIN, DIVISOR, Kind, rule};
use std::alloc::{AllocError, Global};
use tb_words::next_seed;

/// More symbols than any text here is made of.
const MOST_SYMBOLS: u16 = 2000;

/// Choices made one after the other.
#[derive(Clone, Copy, Drop)]
pub struct Choices {
    seed: u16,
    // The divisor that was chosen last.
    divisor: &'static [u8],
}

// Appends symbols in reverse order.
fn push_reversed(symbols: &mut Vec<u8>, of: &[u8]) -> Result<(), AllocError> {
    for symbol in of.iter().rev() {
        symbols.push(*symbol)?;
    }
    Ok(())
}

impl Choices {
    /// Choices that this seed determines.
    pub fn new(seed: u16) -> Choices {
        Choices {
            seed,
            divisor: b"1",
        }
    }

    fn one_of(&mut self, texts: &[&'static [u8]; 16]) -> &'static [u8] {
        self.seed = next_seed(self.seed);
        texts[usize::from(self.seed / 4096)]
    }

    // What a symbol stands for, if not for itself.
    fn replaced(&mut self, symbol: u8) -> Option<&'static [u8]> {
        if symbol == AGAIN {
            return Some(self.divisor);
        }
        let text = self.one_of(rule(symbol)?);
        if symbol == DIVISOR {
            self.divisor = text;
        }
        Some(text)
    }

    // Appends what the symbols stand for that are still to be replaced, the next one last.
    fn append(&mut self, symbols: &mut Vec<u8>, text: &mut Vec<u8>) -> Result<(), AllocError> {
        for _ in 0..MOST_SYMBOLS {
            let Some(symbol) = symbols.pop() else { break };
            match self.replaced(symbol) {
                Some(replacing) => push_reversed(symbols, replacing)?,
                None => text.push(symbol)?,
            }
        }
        Ok(())
    }

    /// A text that these symbols stand for.
    pub fn text(&mut self, alloc: Global, of: &[u8]) -> Result<Vec<u8>, AllocError> {
        let mut symbols = Vec::new(alloc);
        push_reversed(&mut symbols, of)?;
        let mut text = Vec::new(alloc);
        self.append(&mut symbols, &mut text)?;
        Ok(text)
    }

    /// A program, and what it is run on.
    pub fn case(&mut self, alloc: Global, kind: &Kind, seed: u16) -> Result<Case, AllocError> {
        Ok(Case {
            source: self.text(alloc, kind.source)?,
            seed,
            keys: self.text(alloc, b"y")?,
            answers: self.text(alloc, kind.answers)?,
        })
    }
}

/// A source, and what it is run on.
#[derive(Debug, Drop)]
pub struct Case {
    pub source: Vec<u8>,
    /// The seed of RND.
    pub seed: u16,
    pub keys: Vec<u8>,
    pub answers: Vec<u8>,
}
