//! Rows of the words, the opcodes, the memory map, the processor and the machine with its ROM.
pub mod events;
mod fidgety;
pub mod memory;
pub mod opcodes;
pub mod processor;
pub mod runs;
mod setting;
pub mod words;
mod writing;

use self::setting::{Setting, first_regs};
use crate::page::Page;
use std::alloc::{AllocError, Global};
use tb_cpu::Regs;
use tb_kernal::Machine;
use tb_memmap::Memory;

/// What the rows of the memory, the processor and the machine work on, from one to the next.
#[derive(Drop)]
pub struct Bench {
    regs: Regs,
    memory: Memory,
    machine: Option<Machine>,
    setting: Setting,
}

impl Bench {
    /// A bench with the registers before a program, a new memory and no machine. Fails only if memory runs out.
    pub fn new(alloc: Global) -> Result<Bench, AllocError> {
        Ok(Bench {
            regs: first_regs(),
            memory: Memory::new(alloc)?,
            machine: None,
            setting: Setting::new(alloc),
        })
    }

    // A program at the start, with a memory of no bytes.
    fn restart(&mut self, page: &mut Page) {
        let memory = Memory::new(page.alloc());
        if let Some(memory) = page.held(memory) {
            self.memory = memory;
        }
        self.regs = first_regs();
    }
}
