//! Rows run by the engine, and on machines of a test's own.
use crate::rows::Row;
use std::alloc::Global;
use std::test::Fail;
use tb_codegen::{Options, compile};
use tb_compiled::Compiled;
use tb_cpu::Regs;
use tb_driver::{Tracked, host_form, run_text};
use tb_engines::start_regs;
use tb_kernal::{Machine, Outside, Status};
use tb_memmap::{BASIC_START, Memory};
use tb_test_support::keyboard_of;

/// More events than any program here takes if it comes to an end.
pub const LIMIT: u64 = 10_000_000;

/// The machine when a program begins: the byte at all open addresses but the program's, registers and flags.
#[derive(Clone, Copy)]
pub struct Start {
    pub byte: u8,
    pub regs: Regs,
}

/// How `tbc run` begins.
pub fn clean() -> Start {
    Start {
        byte: 0,
        regs: start_regs(BASIC_START),
    }
}

/// What the engine came to.
#[derive(Drop)]
pub struct Ran {
    pub status: u8,
    /// The text on standard output.
    pub shown: Vec<u8>,
    /// The text on standard error.
    pub said: String,
}

// Fills all open addresses but the program's with a byte. A new memory has 0 there.
fn set_all(alloc: Global, memory: &mut Memory, byte: u8) -> Result<(), Fail> {
    if byte != 0 {
        memory.load(0xc000, &[byte; 0x1000])?;
        let bytes = Vec::from_elem(alloc, byte, 0x9ffe)?;
        memory.load(0x0002, bytes.as_slice())?;
    }
    Ok(())
}

impl Start {
    // Loads a program, and the return to the ROM.
    fn load(&self, memory: &mut Memory, program: &Compiled) -> Result<(), Fail> {
        let file = tb_prg::read(program.prg())?;
        memory.load(file.at, file.bytes)?;
        memory.load(0x0101 + u16::from(self.regs.s), &[0xff, 0xa0])?;
        Ok(())
    }

    fn memory(&self, alloc: Global, program: &Compiled) -> Result<Memory, Fail> {
        let mut memory = Memory::new(alloc)?;
        set_all(alloc, &mut memory, self.byte)?;
        self.load(&mut memory, program)?;
        Ok(memory)
    }
}

impl Row<'_> {
    // Runs the source by the engine on a screen: the status, and the text on standard error.
    fn run_on<O: Outside>(
        &self,
        alloc: Global,
        screen: &mut Tracked<Vec<u8>>,
        limit: u64,
        outside: &mut O,
    ) -> Result<(u8, String), Fail> {
        let keyboard = keyboard_of(alloc, self.keys, self.answers)?;
        let mut source = Tracked::new(self.source.as_bytes());
        let report = run_text(
            alloc,
            &mut source,
            screen,
            self.seed,
            keyboard,
            limit,
            outside,
        );
        let said = format!(in alloc; "{report}")?;
        Ok((report.status(), said))
    }

    /// Runs the source by the engine.
    pub fn run_by_engine<O: Outside>(
        &self,
        alloc: Global,
        limit: u64,
        outside: &mut O,
    ) -> Result<Ran, Fail> {
        let mut screen = Tracked::new(Vec::new(alloc));
        let (status, said) = self.run_on(alloc, &mut screen, limit, outside)?;
        Ok(Ran {
            status,
            shown: screen.stream,
            said,
        })
    }

    /// The program, compiled.
    pub fn compiled(&self, alloc: Global) -> Result<Compiled, Fail> {
        Ok(compile(alloc, self.source.as_bytes(), Options { seed: self.seed })?)
    }

    /// The machine that is about to run a program.
    pub fn machine(
        &self,
        alloc: Global,
        program: &Compiled,
        start: &Start,
    ) -> Result<Machine, Fail> {
        let keyboard = keyboard_of(alloc, self.keys, self.answers)?;
        let memory = start.memory(alloc, program)?;
        Ok(
            Machine::enter(alloc, memory, start.regs, keyboard)
                .ok()
                .ok_or("no machine")?,
        )
    }

    /// Whether a machine has ended and sent as the row says.
    pub fn is_done_by(&self, alloc: Global, machine: &Machine) -> Result<bool, Fail> {
        let shown = host_form(alloc, machine.sent())?;
        Ok(
            exit_status(machine.status()) == self.status
                && shown.as_slice() == self.shown.as_bytes(),
        )
    }
}

fn exit_status(status: Status) -> u8 {
    match status {
        Status::Returned => 0,
        Status::Running => 5,
        Status::Waits => 6,
        Status::Wrong(_) => 7,
    }
}
