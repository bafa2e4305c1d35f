//! Generated programs of 300 to 900 lines, all too large by their cost: compiled to fit, each sends what its source sends.
use crate::generated::grammar::{AHEAD, LARGE, LARGE_HEAD, LARGE_TAIL, LEAN};
use crate::generated::programs::{Case, Choices};
use crate::generated::trials::{file_agrees_twice, run_of};
use std::alloc::{AllocError, Global};
use std::process::Abort;
use std::test::Fail;
use tb_codegen::{Options, compile, compile_to_fit};
use tb_compiled::CompileError;
use tb_basic_meaning::RunEnd;

/// How many lines head and tail have.
const FIXED: u16 = 15;

/// The first line of the tail.
const TAIL_AT: u16 = 20_000;

/// From this line on, a program whose statements are of any length may not fit.
const MOST_OF_ANY: u16 = 5_800;

/// How far ahead jumps go.
const DISTANCES: [u16; 8] = [20, 20, 20, 30, 30, 40, 50, 400];

// The number of a line that is ahead of another.
fn ahead_of(number: u16) -> u16 {
    let distance = DISTANCES[usize::from(number / 10 % 8)];
    number.saturating_add(distance)
}

// Appends a line; a jump goes to the target.
fn push_line(
    alloc: Global,
    source: &mut Vec<u8>,
    number: u16,
    target: u16,
    statement: &[u8],
) -> Result<(), AllocError> {
    source.extend_from_slice(format!(in alloc; "{number} ")?.as_bytes())?;
    for symbol in statement {
        if *symbol == AHEAD {
            source.extend_from_slice(format!(in alloc; "{target}")?.as_bytes())?;
        } else {
            source.push(*symbol)?;
        }
    }
    source.push(b'\n')?;
    Ok(())
}

// Appends a large program's statements, 10, 20, .. up to a line.
fn push_body(
    alloc: Global,
    choices: &mut Choices,
    source: &mut Vec<u8>,
    last: u16,
) -> Result<(), AllocError> {
    let letter = if last < MOST_OF_ANY { LARGE } else { LEAN };
    for number in (10..=last).step_by(10) {
        let statement = choices.text(alloc, &[letter])?;
        let ahead = ahead_of(number);
        let target = if last < ahead { TAIL_AT } else { ahead };
        push_line(alloc, source, number, target, &statement)?;
    }
    Ok(())
}

// A program of this many lines, and what it is run on.
fn case_of(alloc: Global, choices: &mut Choices, lines: u16) -> Result<Case, AllocError> {
    let mut source = choices.text(alloc, LARGE_HEAD)?;
    let last = lines.saturating_sub(FIXED).saturating_mul(10);
    push_body(alloc, choices, &mut source, last)?;
    source.extend_from_slice(&choices.text(alloc, LARGE_TAIL)?)?;
    Ok(Case {
        source,
        seed: lines,
        keys: choices.text(alloc, b"y")?,
        answers: Vec::new(alloc),
    })
}

fn is_refused(alloc: Global, case: &Case) -> bool {
    let options = Options { seed: case.seed };
    matches!(
        compile(alloc, &case.source, options),
        Err(CompileError::TooLarge(_))
    )
}

// Whether a program is refused for its cost, and fits, and sends what its source sends. Notes how its source ends.
fn is_the_sources(alloc: Global, case: &Case, endings: &mut Vec<RunEnd>) -> Result<bool, Fail> {
    let run = run_of(alloc, case)?;
    endings.push(run.end)?;
    let program = compile_to_fit(alloc, &case.source, Options { seed: case.seed })?;
    Ok(is_refused(alloc, case) && file_agrees_twice(alloc, program.prg(), case, &run)?)
}

// The first large program that sends something else, of those of every sixth number of lines from this one on.
fn first_strayed(
    alloc: Global,
    from: u16,
    endings: &mut Vec<RunEnd>,
) -> Result<Option<Case>, Fail> {
    let mut choices = Choices::new(from);
    for lines in (from..=900).step_by(12) {
        let case = case_of(alloc, &mut choices, lines)?;
        if !is_the_sources(alloc, &case, endings)? {
            return Ok(Some(case));
        }
    }
    Ok(None)
}

fn try_from<R: Abort + AllocGlobal>(rt: &R, from: u16) -> Result<(), Fail> {
    let mut endings = Vec::new(rt.alloc());
    let strayed = first_strayed(rt.alloc(), from, &mut endings)?;
    assert!(rt; strayed.is_none(), "{strayed:?}");
    assert!(rt; 50 <= endings.len());
    let ended = endings.iter().filter(|end| **end == RunEnd::Ended).count();
    assert!(rt; 10 <= ended, "{ended}");
    Ok(())
}

#[test]
fn large_programs_send_what_their_sources_send(rt: HostRuntime) -> Result<(), Fail> {
    try_from(&rt, 300)
}

#[test]
fn other_large_programs_send_what_their_sources_send(rt: HostRuntime) -> Result<(), Fail> {
    try_from(&rt, 306)
}
