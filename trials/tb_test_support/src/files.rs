//! A file that fails in mid-stream, and what was written.
ghost use Rattle.std.specs.Prelude.{⊤};

use crate::streams::FailingReader;
use std::alloc::{AllocError, Global};
use tb_engine_files::{FileSystem, Look, Place, Trouble};
use tb_engine_streams::Tracked;

/// What the file at each path holds, and what was written.
#[derive(Drop)]
pub struct Shelf<'a> {
    held: &'a [u8],
    /// After how many bytes the file fails.
    until_fault: usize,
    /// The most bytes that the file gives at once.
    pub most: usize,
    /// How many files can be written.
    room: usize,
    /// What was written, a text for each file.
    pub saved: Vec<Vec<u8>>,
}

impl<'a> Shelf<'a> {
    /// A file that fails after some of these bytes, of which it gives three at once, and room for some files.
    pub fn new(alloc: Global, held: &'a [u8], until_fault: usize, room: usize) -> Shelf<'a> {
        Shelf {
            held,
            until_fault,
            most: 3,
            room,
            saved: Vec::new(alloc),
        }
    }
}

impl<'a> FileSystem for Shelf<'a> {
    type Input = FailingReader<'a>;

    ghost leads = { λ _ _ _. ⊤ };

    ghost shows = { λ _ _ _. ⊤ };

    ghost does = { λ _ _ _. ⊤ };

    ghost holds = { λ _ _ _. ⊤ };

    fn place(&self, _alloc: Global, _path: &str) -> Result<Place, AllocError> {
        Ok(Place::Elsewhere)
    }

    fn look(&self, _alloc: Global, _path: &str) -> Result<Option<Look>, AllocError> {
        Ok(None)
    }

    fn open(&mut self, _path: &str) -> Result<Tracked<FailingReader<'a>>, Trouble> {
        Ok(Tracked::new(FailingReader::new(self.held, self.until_fault, self.most)))
    }

    fn close(&mut self, _path: &str, _input: Tracked<FailingReader<'a>>) {}

    fn save(&mut self, _path: &str, bytes: &[u8]) -> Result<(), Trouble> {
        if self.room <= self.saved.len() {
            return Err(Trouble::Fault);
        }
        let Ok(bytes) = Vec::from_slice(*self.saved.allocator(), bytes) else {
            return Err(Trouble::NoMemory);
        };
        match self.saved.push(bytes) {
            Ok(()) => Ok(()),
            Err(_) => Err(Trouble::NoMemory),
        }
    }
}
