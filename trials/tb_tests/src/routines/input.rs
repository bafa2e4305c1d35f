//! Input against the definition's own rows and against the interpreter of sources.
use crate::routines::setup::{Call, Called, End, ROMS, plain};
use std::alloc::Global;
use std::test::Fail;
use tb_compiled_kept::{COLUMN, LINE, OPEN, RESULT};
use tb_kernal::Machine;
use tb_basic_meaning::{RunEnd, SourceRun, run_source};
use tb_runtime16::Routine;
use tb_basic_syntax::{Program, Statement};
use tb_words::{Letter, next_seed};

// One turn at line 10, with a line open or not.
fn turn(alloc: Global, rom: Option<u16>, keys: &[u8], is_open: bool) -> Result<Called, Fail> {
    Call {
        words: &[(LINE, 10)],
        bytes: &[(OPEN, u8::from(is_open)), (COLUMN, 0)],
        keys,
        ..plain(Routine::Input)
    }
    .run(alloc, rom)
}

// What a row wants.
enum Want {
    // a value, and whether the line is then open
    Got(u16, bool),
    // fault 6
    Bad,
    // to wait
    Dry,
}

// Keys, how many of them are left, and what comes of them.
type Row = (&'static [u8], usize, Want);

const ROWS: [Row; 38] = [
    (b"5\r", 0, Want::Got(5, false)),
    (b"5,6\r", 2, Want::Got(5, true)),
    (b"5,", 0, Want::Got(5, true)),
    (b"0\r1", 1, Want::Got(0, false)),
    (b"007\r", 0, Want::Got(7, false)),
    (b"+7\r", 0, Want::Got(7, false)),
    (b"-4\r", 0, Want::Got(65532, false)),
    (b" - 1 2 ,", 0, Want::Got(65524, true)),
    (b"  1 2  \r", 0, Want::Got(12, false)),
    (b"255\r", 0, Want::Got(255, false)),
    (b"256\r", 0, Want::Got(256, false)),
    (b"32767\r", 0, Want::Got(32767, false)),
    (b"-32768\r", 0, Want::Got(32768, false)),
    (b"65535\r", 0, Want::Got(65535, false)),
    (b"65536\r", 0, Want::Got(0, false)),
    (b"70000,0\r", 2, Want::Got(4464, true)),
    (b"123456789\r", 0, Want::Got(52501, false)),
    (b"X", 0, Want::Bad),
    (b"\r5\r", 2, Want::Bad),
    (b",5\r", 2, Want::Bad),
    (b"-\r", 0, Want::Bad),
    (b"+,", 0, Want::Bad),
    (b"--1\r", 2, Want::Bad),
    (b"+-1\r", 2, Want::Bad),
    (b"1-\r", 1, Want::Bad),
    (b"1+\r", 1, Want::Bad),
    (b"1/", 0, Want::Bad),
    (b"1:", 0, Want::Bad),
    (b"\x00", 0, Want::Bad),
    (b"\x0c", 0, Want::Bad),
    (b"\x0e", 0, Want::Bad),
    (b"1.", 0, Want::Bad),
    (b"\xff", 0, Want::Bad),
    (b"\n", 0, Want::Bad),
    (b"1a\r", 1, Want::Bad),
    (b"", 0, Want::Dry),
    (b"- ", 0, Want::Dry),
    (b"12", 0, Want::Dry),
];

// Whether a turn came to what a row wants.
fn is_wanted(called: &Called, is_open: bool, want: &Want) -> bool {
    let prompt = if is_open { b"".as_slice() } else { b"? " };
    match want {
        Want::Got(value, stays) => {
            called.sends(sent_in_a_turn(is_open, *stays))
                && called.word(RESULT) == Some(*value)
                && called.byte(OPEN) == Some(u8::from(*stays))
        }
        Want::Bad => called.faults(prompt, 6),
        Want::Dry => called.end == End::Waits && called.machine.sent() == prompt,
    }
}

// What a turn sends: a prompt if no line is open, and a return if none stays open.
fn sent_in_a_turn(is_open: bool, stays: bool) -> &'static [u8] {
    match (is_open, stays) {
        (false, false) => b"? \r",
        (false, true) => b"? ",
        (true, false) => b"\r",
        (true, true) => b"",
    }
}

// Whether a turn does what a row wants, and takes no more keys.
fn does(alloc: Global, rom: Option<u16>, row: &Row, is_open: bool) -> Result<bool, Fail> {
    let (keys, left, want) = row;
    let called = turn(alloc, rom, keys, is_open)?;
    let is_left = called.machine.keys_left().0.len() == *left;
    Ok(is_left && is_wanted(&called, is_open, want))
}

#[test]
fn turns_of_input(rt: HostRuntime) -> Result<(), Fail> {
    for rom in ROMS {
        for is_open in [false, true] {
            for row in &ROWS {
                assert!(rt; does(rt.alloc(), rom, row, is_open)?, "{:?}", row.0);
            }
        }
    }
    Ok(())
}

// The keys of a seed: at most 12, of those that mean something and one that doesn't.
fn noisy_keys(alloc: Global, seed: u16) -> Result<Vec<u8>, Fail> {
    let signs = b"0123456789  +-,,,\r\rX";
    let mut keys = Vec::new(alloc);
    let mut seed = seed;
    for _ in 0..seed / 256 % 13 {
        seed = next_seed(seed);
        let index = usize::from(seed / 256) % signs.len();
        keys.push(signs[index])?;
    }
    Ok(keys)
}

// 10 INPUT A,B,C by the interpreter of sources.
fn by_source(alloc: Global, keys: &[u8]) -> Result<SourceRun, Fail> {
    let mut letters = Vec::new(alloc);
    for name in [b'A', b'B', b'C'] {
        letters.push(Letter::read(name).ok_or("no letter")?)?;
    }
    let mut program = Program::new(alloc);
    program.set(10, Statement::Input(letters))?;
    Ok(run_source(alloc, &program, 1, keys, &[], 1)?)
}

// Up to three turns one after the other: what was sent, the values, and how the last one ended.
fn by_turns(
    alloc: Global,
    rom: Option<u16>,
    keys: &[u8],
) -> Result<(Vec<u8>, [u16; 3], End), Fail> {
    let mut sent = Vec::new(alloc);
    let mut values = [0; 3];
    let mut left = Vec::from_slice(alloc, keys)?;
    let mut is_open = false;
    for value in &mut values {
        let called = turn(alloc, rom, &left, is_open)?;
        sent.extend_from_slice(called.machine.sent())?;
        if called.end != End::Back {
            return Ok((sent, values, called.end));
        }
        *value = called.word(RESULT).unwrap_or(0);
        is_open = called.byte(OPEN) == Some(1);
        left = Vec::from_slice(alloc, called.machine.keys_left().0)?;
    }
    Ok((sent, values, End::Back))
}

// Whether turns send, store and end as the source does.
fn is_the_sources(alloc: Global, rom: Option<u16>, keys: &[u8]) -> Result<bool, Fail> {
    let run = by_source(alloc, keys)?;
    let (sent, values, end) = by_turns(alloc, rom, keys)?;
    let ends = match run.end {
        RunEnd::Waits => end == End::Waits,
        RunEnd::Faulted => end == End::Home,
        _ => end == End::Back && values.as_slice() == &run.variables[..3],
    };
    Ok(ends && sent.as_slice() == run.sent.as_slice())
}

#[test]
fn turns_are_the_sources(rt: HostRuntime) -> Result<(), Fail> {
    for rom in ROMS {
        let mut seed = 1;
        for _ in 0..500 {
            seed = next_seed(seed);
            let keys = noisy_keys(rt.alloc(), seed)?;
            assert!(rt; is_the_sources(rt.alloc(), rom, &keys)?, "{keys:?}");
        }
    }
    Ok(())
}
