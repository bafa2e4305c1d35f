//! What a compiled program sends is what its source's run sends, and it ends as that does.
use crate::generated::grammar::{ANY, Kind, SHORT};
use crate::generated::programs::{Case, Choices};
use std::alloc::{AllocError, Global};
use std::test::Fail;
use tb_driver::{End, Outcome, Tracked, build, host_form, run_prg};
use tb_kernal::{Quiet, Rude};
use tb_basic_meaning::{RunEnd, SourceRun, run_source};
use tb_parser::parse;
use tb_test_support::keyboard_of;

/// How many programs of a kind are tried.
const PROGRAMS: u16 = 500;

/// How many lines of a source are run.
const MOST_LINES: u64 = 3000;

/// Enough events for a program whose source ends within `MOST_LINES` lines.
pub const AMPLE: u64 = 100_000_000;

/// Too few events for `MOST_LINES` lines, of which each takes four at least.
pub const SCANT: u64 = 10_000;

/// How a source's run ended.
#[derive(Clone, Copy, PartialEq, Eq, Debug, Drop)]
enum Ending {
    GoesOn,
    Ended,
    Waits,
    /// By a fault, with its digit.
    Fault(u8),
}

static ENDINGS: [Ending; 11] = [
    Ending::GoesOn,
    Ending::Ended,
    Ending::Waits,
    Ending::Fault(b'0'),
    Ending::Fault(b'1'),
    Ending::Fault(b'2'),
    Ending::Fault(b'3'),
    Ending::Fault(b'4'),
    Ending::Fault(b'5'),
    Ending::Fault(b'6'),
    Ending::Fault(b'7'),
];

// The table is named here alone, since each function that names it takes long to prove.
fn all_endings() -> &'static [Ending] {
    &ENDINGS
}

// How a run ended: no text of a program has the character that a fault's text begins with.
fn ending_of(run: &SourceRun) -> Ending {
    match run.end {
        RunEnd::GoesOn => Ending::GoesOn,
        RunEnd::Ended => Ending::Ended,
        RunEnd::Waits => Ending::Waits,
        RunEnd::Faulted => {
            let mut from_sign = run.sent.iter().skip_while(|byte| **byte != b'!');
            Ending::Fault(*from_sign.nth(1).unwrap_or(&b'?'))
        }
    }
}

/// The run of a source.
pub fn run_of(alloc: Global, case: &Case) -> Result<SourceRun, Fail> {
    let program = parse(alloc, &case.source)?;
    Ok(run_source(
        alloc,
        &program,
        case.seed,
        &case.keys,
        &case.answers,
        MOST_LINES,
    )?)
}

/// What a run of a PRG file came to.
#[derive(Debug, Drop)]
pub struct Ran {
    pub outcome: Outcome,
    pub shown: Vec<u8>,
}

// Runs a PRG file, with a quiet ROM if there is no seed of a rude one.
fn run_file(
    alloc: Global,
    file: &[u8],
    case: &Case,
    limit: u64,
    rude: Option<u16>,
) -> Result<Ran, AllocError> {
    let keyboard = keyboard_of(alloc, &case.keys, &case.answers)?;
    let mut file = Tracked::new(file);
    let mut screen = Tracked::new(Vec::new(alloc));
    let outcome = match rude {
        None => run_prg(alloc, &mut file, &mut screen, keyboard, limit, &mut Quiet),
        Some(seed) => run_prg(
            alloc,
            &mut file,
            &mut screen,
            keyboard,
            limit,
            &mut Rude::new(seed),
        ),
    };
    Ok(Ran {
        outcome,
        shown: screen.stream,
    })
}

/// Whether a PRG file's run is what the source's run comes to. A run that goes on shows a prefix of it.
pub fn agrees(alloc: Global, run: &SourceRun, ran: &Ran) -> Result<bool, AllocError> {
    let wanted = host_form(alloc, &run.sent)?;
    let (shown, wanted) = (ran.shown.as_slice(), wanted.as_slice());
    Ok(match run.end {
        RunEnd::Ended | RunEnd::Faulted => {
            ran.outcome == Outcome::Ended(End::Done) && shown == wanted
        }
        RunEnd::Waits => ran.outcome == Outcome::Ended(End::WaitsForKey) && shown == wanted,
        RunEnd::GoesOn => {
            ran.outcome == Outcome::Ended(End::StepLimit) && wanted.starts_with(shown)
        }
    })
}

// Whether a PRG file's run, with a quiet ROM or a rude one, is what the source's run comes to.
fn file_agrees(
    alloc: Global,
    file: &[u8],
    case: &Case,
    run: &SourceRun,
    rude: Option<u16>,
) -> Result<bool, AllocError> {
    let limit = if run.end == RunEnd::GoesOn {
        SCANT
    } else {
        AMPLE
    };
    let ran = run_file(alloc, file, case, limit, rude)?;
    agrees(alloc, run, &ran)
}

/// The same for both ROMs.
pub fn file_agrees_twice(
    alloc: Global,
    file: &[u8],
    case: &Case,
    run: &SourceRun,
) -> Result<bool, AllocError> {
    Ok(
        file_agrees(alloc, file, case, run, None)?
            && file_agrees(alloc, file, case, run, Some(case.seed))?,
    )
}

/// Compiles a program, and runs it with a quiet ROM and with a rude one.
pub fn both_agree(alloc: Global, case: &Case, run: &SourceRun) -> Result<bool, AllocError> {
    let mut file = Tracked::new(Vec::new(alloc));
    let mut source = Tracked::new(case.source.as_slice());
    build(alloc, &mut source, &mut file, case.seed);
    file_agrees_twice(alloc, &file.stream, case, run)
}

// Whether a program sends what its source sends. Notes how it ends.
fn is_the_sources(alloc: Global, case: &Case, endings: &mut Vec<Ending>) -> Result<bool, Fail> {
    let run = run_of(alloc, case)?;
    endings.push(ending_of(&run))?;
    Ok(both_agree(alloc, case, &run)?)
}

// The first program of a kind that sends something else. Notes how each ends.
fn first_strayed(
    alloc: Global,
    kind: &Kind,
    endings: &mut Vec<Ending>,
) -> Result<Option<Case>, Fail> {
    let mut choices = Choices::new(1);
    for seed in 0..PROGRAMS {
        let case = choices.case(alloc, kind, seed)?;
        if !is_the_sources(alloc, &case, endings)? {
            return Ok(Some(case));
        }
    }
    Ok(None)
}

// The first ending that comes up less than four times.
fn first_rare(endings: &[Ending]) -> Option<Ending> {
    for wanted in all_endings() {
        if endings.iter().filter(|ending| *ending == wanted).count() < 4 {
            return Some(*wanted);
        }
    }
    None
}

#[test]
fn compiled_programs_send_what_their_sources_send(rt: HostRuntime) -> Result<(), Fail> {
    let mut endings = Vec::new(rt.alloc());
    let strayed = first_strayed(rt.alloc(), &ANY, &mut endings)?;
    assert!(rt; strayed.is_none(), "{strayed:?}");
    assert_eq!(rt; first_rare(&endings), None);
    Ok(())
}

#[test]
fn short_code_sends_what_its_source_sends(rt: HostRuntime) -> Result<(), Fail> {
    let mut endings = Vec::new(rt.alloc());
    let strayed = first_strayed(rt.alloc(), &SHORT, &mut endings)?;
    assert!(rt; strayed.is_none(), "{strayed:?}");
    Ok(())
}
