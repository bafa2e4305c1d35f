//! Programs with quiet and hostile ROMs: the same bytes and the same end.
use crate::machines::{LIMIT, Start, clean};
use crate::outsides::{Contrary, Sweeping};
use crate::rows::{LongSources, Row, rows};
use std::alloc::Global;
use std::test::Fail;
use tb_compiled::Compiled;
use tb_cpu::{Flags, Regs};
use tb_kernal::{Machine, Outside, Quiet, Rude, run};

impl Row<'_> {
    // Whether the engine shows and says what it should.
    fn is_shown_beside<O: Outside>(&self, alloc: Global, outside: &mut O) -> Result<bool, Fail> {
        let ran = self.run_by_engine(alloc, LIMIT, outside)?;
        Ok(
            ran.status == self.status
                && ran.shown.as_slice() == self.shown.as_bytes()
                && ran.said.as_str() == self.said,
        )
    }

    // Whether a machine that is run ends and sends as it should.
    fn is_done_on<O: Outside>(
        &self,
        alloc: Global,
        machine: &mut Machine,
        outside: &mut O,
    ) -> Result<bool, Fail> {
        run(machine, outside, LIMIT)?;
        self.is_done_by(alloc, machine)
    }

    // Whether the machine ends and sends as it should.
    fn is_done_beside<O: Outside>(
        &self,
        alloc: Global,
        program: &Compiled,
        start: &Start,
        outside: &mut O,
    ) -> Result<bool, Fail> {
        let mut machine = self.machine(alloc, program, start)?;
        self.is_done_on(alloc, &mut machine, outside)
    }

    // Whether it does so with a quiet ROM and with a rude one.
    fn is_shown(&self, alloc: Global) -> Result<bool, Fail> {
        Ok(
            self.is_shown_beside(alloc, &mut Quiet)?
                && self.is_shown_beside(alloc, &mut Rude::new(1))?,
        )
    }

    // Whether hostile ROMs change nothing.
    fn is_done_beside_hostile(&self, alloc: Global) -> Result<bool, Fail> {
        let program = self.compiled(alloc)?;
        self.is_program_done_beside_hostile(alloc, &program)
    }

    fn is_program_done_beside_hostile(
        &self,
        alloc: Global,
        program: &Compiled,
    ) -> Result<bool, Fail> {
        for seed in 0..256 {
            if !self.is_done_beside(alloc, program, &clean(), &mut Rude::new(seed))? {
                return Ok(false);
            }
        }
        Ok(
            self.is_done_beside(alloc, program, &clean(), &mut Contrary::new())?
                && self.is_done_beside(alloc, program, &clean(), &mut Sweeping::new())?,
        )
    }

    // Whether wild starts change nothing.
    fn is_done_from_wild(&self, alloc: Global) -> Result<bool, Fail> {
        let program = self.compiled(alloc)?;
        self.is_program_done_from_wild(alloc, &program)
    }

    fn is_program_done_from_wild(&self, alloc: Global, program: &Compiled) -> Result<bool, Fail> {
        for &(byte, s, flag) in &[
            (0xff, 0x60, true),
            (0x01, 0xfd, true),
            (0x55, 0x80, false),
            (0x99, 0xf0, true),
        ] {
            let start = wild_start(byte, s, flag);
            if !self.is_done_beside(alloc, program, &start, &mut Quiet)?
                || !self.is_done_beside(alloc, program, &start, &mut Contrary::new())?
            {
                return Ok(false);
            }
        }
        Ok(true)
    }
}

// A start with a byte in all registers and all open addresses, and flags of one kind.
fn wild_start(byte: u8, s: u8, flag: bool) -> Start {
    let flags = Flags::from_byte(if flag { 0xff } else { 0 });
    let regs = Regs {
        a: byte,
        x: byte,
        y: byte,
        s,
        pc: clean().regs.pc,
        flags,
    };
    Start { byte, regs }
}

/// What is tried of a row.
#[derive(Clone, Copy)]
enum Trial {
    /// Whether the engine shows it.
    Engine,
    /// Whether that holds with hostile ROMs too.
    HostileRoms,
    /// Whether that holds from wild starts too.
    WildStarts,
}

impl Row<'_> {
    fn passes(&self, alloc: Global, trial: Trial) -> Result<bool, Fail> {
        match trial {
            Trial::Engine => self.is_shown(alloc),
            Trial::HostileRoms => self.is_done_beside_hostile(alloc),
            Trial::WildStarts => self.is_done_from_wild(alloc),
        }
    }
}

// The source of the first row that does not pass.
fn first_failed<'a>(
    alloc: Global,
    rows: &[Row<'a>],
    trial: Trial,
) -> Result<Option<&'a str>, Fail> {
    for row in rows {
        if !row.passes(alloc, trial)? {
            return Ok(Some(row.source));
        }
    }
    Ok(None)
}

#[test]
fn programs_end(rt: HostRuntime) -> Result<(), Fail> {
    let long = LongSources::new(rt.alloc())?;
    let rows = rows(rt.alloc(), &long)?;
    assert_eq!(rt; first_failed(rt.alloc(), &rows, Trial::Engine)?, None);
    Ok(())
}

#[test]
fn a_hostile_rom_changes_nothing(rt: HostRuntime) -> Result<(), Fail> {
    let long = LongSources::new(rt.alloc())?;
    let rows = rows(rt.alloc(), &long)?;
    assert_eq!(rt; first_failed(rt.alloc(), &rows, Trial::HostileRoms)?, None);
    Ok(())
}

#[test]
fn a_wild_start_changes_nothing(rt: HostRuntime) -> Result<(), Fail> {
    let long = LongSources::new(rt.alloc())?;
    let rows = rows(rt.alloc(), &long)?;
    assert_eq!(rt; first_failed(rt.alloc(), &rows, Trial::WildStarts)?, None);
    Ok(())
}
