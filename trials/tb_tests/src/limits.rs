//! Endless programs, and where a run's PC is.
use crate::machines::{LIMIT, Ran, clean};
use crate::rows::{PLAIN, Row};
use std::alloc::{AllocError, Global};
use std::test::Fail;
use tb_compiled::Compiled;
use tb_kernal::{Machine, Quiet, Rude, Status, run};
use tb_runtime16::{Routine, entry};

const ONES: Row<'static> = Row {
    source: "10 PRINT 1\n20 GOTO 10",
    ..PLAIN
};

const LETTERS: Row<'static> = Row {
    source: "10 PRINT \"A\";\n20 GOTO 10",
    ..PLAIN
};

fn is_cut_off(ran: &Ran) -> bool {
    ran.status == 5 && ran.said.as_bytes() == b"tbc: step limit\n".as_slice()
}

// Whether a run was cut off and shows what was shown before, or more. Notes what it shows.
fn goes_on(ran: &Ran, shown: &mut Vec<u8>) -> Result<bool, Fail> {
    let is_longer = is_cut_off(ran) && ran.shown.starts_with(shown.as_slice());
    shown.clear();
    shown.extend_from_slice(&ran.shown)?;
    Ok(is_longer)
}

// Whether the endless ones go on to be shown up to a limit.
fn go_on(alloc: Global, limit: u64, shown: &mut Vec<u8>) -> Result<bool, Fail> {
    let ran = ONES.run_by_engine(alloc, limit, &mut Quiet)?;
    goes_on(&ran, shown)
}

// The first limit up to which they do not. Notes what they show last.
fn first_wrong_limit(alloc: Global, shown: &mut Vec<u8>) -> Result<Option<u64>, Fail> {
    for limit in 1..=5000 {
        if !go_on(alloc, limit, shown)? {
            return Ok(Some(limit));
        }
    }
    Ok(None)
}

#[test]
fn each_limit_shows_a_prefix_of_the_next(rt: HostRuntime) -> Result<(), Fail> {
    let mut shown = Vec::new(rt.alloc());
    assert_eq!(rt; first_wrong_limit(rt.alloc(), &mut shown)?, None);
    assert!(rt; shown.starts_with(b"1\n1\n1\n1\n1\n"));
    Ok(())
}

fn are_letters(text: &[u8]) -> bool {
    !text.is_empty() && text.iter().all(|byte| *byte == b'A')
}

// Whether the endless letters are shown until the engine cuts them off.
fn shows_letters(alloc: Global) -> Result<bool, Fail> {
    let ran = LETTERS.run_by_engine(alloc, 10_000, &mut Quiet)?;
    Ok(is_cut_off(&ran) && are_letters(&ran.shown))
}

// Whether a machine sends them with a rude ROM, and still runs.
fn sends_on(machine: &mut Machine, seed: u16) -> Result<bool, Fail> {
    let status = run(machine, &mut Rude::new(seed), 10_000)?;
    Ok(status == Status::Running && are_letters(machine.sent()))
}

fn sends_letters(alloc: Global, program: &Compiled, seed: u16) -> Result<bool, Fail> {
    let mut machine = LETTERS.machine(alloc, program, &clean())?;
    sends_on(&mut machine, seed)
}

// The first seed of a rude ROM with which the program does not send letters.
fn first_wrong_seed(alloc: Global, program: &Compiled) -> Result<Option<u16>, Fail> {
    for seed in 0..256 {
        if !sends_letters(alloc, program, seed)? {
            return Ok(Some(seed));
        }
    }
    Ok(None)
}

#[test]
fn an_endless_program_is_cut_off(rt: HostRuntime) -> Result<(), Fail> {
    assert!(rt; shows_letters(rt.alloc())?);
    let program = LETTERS.compiled(rt.alloc())?;
    assert_eq!(rt; first_wrong_seed(rt.alloc(), &program)?, None);
    Ok(())
}

// Whether PC comes to an address on the way to the end.
fn passes(machine: &mut Machine, place: u16) -> Result<bool, AllocError> {
    for _ in 0..LIMIT {
        if machine.regs().pc == place {
            return Ok(true);
        }
        if run(machine, &mut Quiet, 1)? != Status::Running {
            break;
        }
    }
    Ok(false)
}

// Whether a program searches the table of lines.
fn program_searches(alloc: Global, row: &Row<'_>, program: &Compiled) -> Result<bool, Fail> {
    let mut machine = row.machine(alloc, program, &clean())?;
    Ok(passes(&mut machine, entry(Routine::Search))?)
}

/// Whether the program of a row searches the table of lines.
pub fn row_searches(alloc: Global, row: &Row<'_>) -> Result<bool, Fail> {
    let program = row.compiled(alloc)?;
    program_searches(alloc, row, &program)
}

// A jump to a number is direct; one to a variable compares it with the numbers of few lines, and searches the table for
// one that isn't there.
#[test]
fn a_direct_jump_searches_for_nothing(rt: HostRuntime) -> Result<(), Fail> {
    let sources: [(&str, bool); 4] = [
        ("10 GOTO 20\n20 END", false),
        ("10 GOTO 5*4\n20 END", false),
        ("10 A=20\n15 GOTO A\n20 END", false),
        ("10 A=21\n15 GOTO A\n20 END", true),
    ];
    for &(source, searches) in &sources {
        let row = Row { source, ..PLAIN };
        assert_eq!(rt; row_searches(rt.alloc(), &row)?, searches);
    }
    Ok(())
}
