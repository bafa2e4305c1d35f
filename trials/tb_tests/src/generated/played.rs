//! Generated programs that ask are played: each sends what its source sends on all that is typed.
use crate::generated::grammar::ANY;
use crate::generated::programs::{Case, Choices};
use crate::generated::trials::{AMPLE, Ran, SCANT, agrees, run_of};
use std::alloc::{AllocError, Global};
use std::test::Fail;
use tb_codegen::TinyBasic;
use tb_compiled::CompileSettings;
use tb_driver::Tracked;
use tb_basic_meaning::{RunEnd, SourceRun};
use tb_engine_play::Played;
use tb_engine_sources::{EndNote, NotedPlay, play_noted, read_source};

/// How many programs are played.
const PROGRAMS: usize = 200;

/// More cases than these are chosen from.
const MOST_CASES: u16 = 1000;

fn asks(case: &Case) -> bool {
    case.source
        .windows(5)
        .any(|word| word == b"INPUT".as_slice())
}

// The case with nothing that is polled, and with a return at the end of its keys, which are handed over line by line.
fn in_lines(alloc: Global, case: Case) -> Result<Case, AllocError> {
    let Case {
        source,
        seed,
        mut keys,
        ..
    } = case;
    if !keys.is_empty() && !keys.ends_with(b"\r") {
        keys.push(b'\r')?;
    }
    Ok(Case {
        source,
        seed,
        keys,
        answers: Vec::new(alloc),
    })
}

// What a person types so that these keys are handed over: lines in small letters, the last one without its end.
fn lines_of(alloc: Global, keys: &[u8]) -> Result<Vec<u8>, AllocError> {
    let mut lines = Vec::new(alloc);
    for key in keys {
        lines.push(if *key == b'\r' {
            b'\n'
        } else {
            key.to_ascii_lowercase()
        })?;
    }
    if lines.ends_with(b"\n") && !lines.ends_with(b"\n\n") {
        lines.pop();
    }
    Ok(lines)
}

// A limit of events for each line that is so low that the whole takes no more than `SCANT`.
fn limit_of(run: &SourceRun, lines: &[u8]) -> u64 {
    let count = lines.iter().filter(|byte| **byte == b'\n').count();
    match run.end {
        RunEnd::GoesOn => SCANT / (count as u64 + 2),
        _ => AMPLE,
    }
}

// Whether a fault is told exactly if the source ended by one.
fn tells_of_fault(run: &SourceRun, note: Option<EndNote>) -> bool {
    let is_told = matches!(note, Some(EndNote::Fault(_)));
    is_told == matches!(run.end, RunEnd::Faulted)
}

// Whether a program that is played sends what its source sends, tells of its fault, and takes no more lines than were
// typed.
fn plays_as_its_source(alloc: Global, case: &Case) -> Result<bool, Fail> {
    let run = run_of(alloc, case)?;
    let mut reader = Tracked::new(case.source.as_slice());
    let settings = CompileSettings::by_cost(case.seed);
    let Ok(source) = read_source(&TinyBasic, alloc, &mut reader, settings) else {
        return Ok(false);
    };
    let lines = lines_of(alloc, &case.keys)?;
    let mut keyboard = Tracked::new(lines.as_slice());
    let mut screen = Tracked::new(Vec::new(alloc));
    let limit = limit_of(&run, &lines);
    let NotedPlay { played, note } = play_noted(
        alloc,
        &source.program,
        &mut keyboard,
        &mut screen,
        limit,
    );
    let Played { outcome, typed } = played;
    let ran = Ran {
        outcome,
        shown: screen.stream,
    };
    let left = keyboard.stream.len();
    let is_all_handed = if left == 0 {
        typed.len() == case.keys.len()
    } else {
        typed.len() == lines.len().saturating_sub(left)
    };
    Ok(agrees(alloc, &run, &ran)?
        && tells_of_fault(&run, note)
        && case.keys.starts_with(&typed)
        && is_all_handed)
}

// The first program that sends something else. Notes how many were played.
fn first_strayed(alloc: Global, played: &mut usize) -> Result<Option<Case>, Fail> {
    let mut choices = Choices::new(2);
    for seed in 0..MOST_CASES {
        let case = choices.case(alloc, &ANY, seed)?;
        if *played == PROGRAMS {
            break;
        }
        if asks(&case) {
            *played = played.wrapping_add(1);
            let case = in_lines(alloc, case)?;
            if !plays_as_its_source(alloc, &case)? {
                return Ok(Some(case));
            }
        }
    }
    Ok(None)
}

#[test]
fn programs_that_are_played_send_what_their_sources_send(rt: HostRuntime) -> Result<(), Fail> {
    let mut played = 0;
    let strayed = first_strayed(rt.alloc(), &mut played)?;
    assert!(rt; strayed.is_none(), "{strayed:?}");
    assert_eq!(rt; played, PROGRAMS);
    Ok(())
}
