//! Fault, Poll and the prologue: how a program ends and begins.
use crate::routines::setup::{
    Call, Called, NOISE, ROMS, memory_with_block, noisy_regs, plain, run_beside,
};
use std::alloc::Global;
use std::test::Fail;
use tb_compiled_kept::{COLUMN, HOME_S, LINE, LINES_AT, NOTES, SEED, VARS};
use tb_kernal::{Machine, Status};
use tb_memmap::Memory;
use tb_runtime16::{BLOCK_AT, Routine};
use tb_test_support::no_keys;

// Whether Fault sends the text of a fault at a line, and ends.
fn faults(alloc: Global, rom: Option<u16>, a: u8, line: u16) -> Result<bool, Fail> {
    let called = Call {
        a,
        words: &[(LINE, line)],
        ..plain(Routine::Fault)
    }
    .run(alloc, rom)?;
    Ok(called.faults(b"", a) && called.byte(COLUMN) == Some(0))
}

#[test]
fn faults_have_their_texts(rt: HostRuntime) -> Result<(), Fail> {
    for rom in ROMS {
        for a in 0..=7 {
            for line in [1, 10, 999, 1000, 32767] {
                assert!(rt; faults(rt.alloc(), rom, a, line)?, "{a} at {line}");
            }
        }
    }
    Ok(())
}

// Whether Fault, entered with a line's number in X and Y, sends the text of a fault at that line, and ends.
fn faults_at(alloc: Global, rom: Option<u16>, a: u8, line: u16) -> Result<bool, Fail> {
    let [x, y] = line.to_le_bytes();
    let called = Call {
        a,
        x,
        y,
        ..plain(Routine::FaultLine)
    }
    .run(alloc, rom)?;
    Ok(called.faults(b"", a) && called.word(LINE) == Some(line))
}

#[test]
fn faults_may_name_their_line(rt: HostRuntime) -> Result<(), Fail> {
    for rom in ROMS {
        for a in 0..=7 {
            for line in [1, 10, 255, 256, 1000, 32767] {
                assert!(rt; faults_at(rt.alloc(), rom, a, line)?, "{a} at {line}");
            }
        }
    }
    Ok(())
}

// Whether Poll takes the first answer, if there is one, and only 3 is fault 0.
fn polls(alloc: Global, rom: Option<u16>, answers: &[u8]) -> Result<bool, Fail> {
    let called = Call {
        words: &[(LINE, 10)],
        answers,
        ..plain(Routine::Poll)
    }
    .run(alloc, rom)?;
    Ok(has_polled(&called, answers))
}

fn has_polled(called: &Called, answers: &[u8]) -> bool {
    let (answer, rest) = answers.split_first().unwrap_or((&0, &[]));
    let holds = match answer {
        3 => called.faults(b"", 0),
        _ => called.sends(b""),
    };
    holds && called.machine.keys_left().1 == rest
}

#[test]
fn poll_takes_one_answer(rt: HostRuntime) -> Result<(), Fail> {
    for rom in ROMS {
        assert!(rt; polls(rt.alloc(), rom, &[])?, "no answer is left");
        for answer in 0..=255 {
            assert!(rt; polls(rt.alloc(), rom, &[answer, 3])?, "{answer}");
        }
    }
    Ok(())
}

// A machine at the prologue, D set, with noise in all data, and RTS for the lines.
fn at_start(alloc: Global, s: u8) -> Result<Machine, Fail> {
    let mut memory = memory_with_block(alloc, s)?;
    memory.write(LINES_AT, 0x60)?;
    Ok(
        Machine::enter(alloc, memory, noisy_regs(BLOCK_AT, s, true), no_keys(alloc))
            .ok()
            .ok_or("no machine")?,
    )
}

// Whether the prologue clears what lines may read before they write it, keeps S, and comes to the lines with D clear.
fn begins(alloc: Global, rom: Option<u16>, s: u8) -> Result<bool, Fail> {
    let mut machine = at_start(alloc, s)?;
    let status = run_beside(&mut machine, rom)?;
    Ok(status == Status::Returned && is_cleared(machine.memory(), s)?)
}

// Whether data is cleared, S is kept, and the first note is left as it was.
fn is_cleared(memory: &Memory, s: u8) -> Result<bool, Fail> {
    for place in (VARS..HOME_S).chain(SEED..NOTES + 2) {
        if memory.read(place)? != 0 {
            return Ok(false);
        }
    }
    Ok(memory.read(HOME_S)? == s && memory.read(NOTES + 2)? == NOISE)
}

#[test]
fn the_prologue_clears_data(rt: HostRuntime) -> Result<(), Fail> {
    for rom in ROMS {
        for s in [0x60, 0xf0, 0xfd] {
            assert!(rt; begins(rt.alloc(), rom, s)?, "{s}");
        }
    }
    Ok(())
}
