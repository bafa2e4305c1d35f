//! Sources that are cut off after each byte, and the longest source.
use crate::cut::engines::{Engine, answer_of, has_said};
use std::alloc::{AllocError, Global};
use std::test::Fail;

/// A line of a source, and the status of `build`, as a digit, if the source ends after each of its bytes.
type Line = (&'static [u8], &'static [u8]);

const PRINTED: &[Line] = &[
    (b"10 PRINT 1,2,3\n", b"111100100000000"),
    (b"20 PRINT 1;2;3\n", b"000100100000000"),
    (b"30 PRINT \"AB\",\n", b"000100100111000"),
    (b"40 PRINT \"C\"\n", b"0001001001100"),
    (b"50 END", b"000110"),
];

const TYPED: &[Line] = &[
    (b"10 INPUT A,B\n", b"1111111110100"),
    (b"20 PRINT A+B\n", b"0001001000100"),
    (b"30 END", b"000110"),
];

const ASSIGNED: &[Line] = &[
    (b"10 I=1\n", b"1111100"),
    (b"20 IF I=I F=5\n", b"00011111111100"),
    (b"30 PRINT F\n", b"00010010000"),
    (b"40 IF P=P REM\n", b"00011111111100"),
    (b"50 END", b"000110"),
];

/// A source's lines, what is typed, and the status of the run.
type Source = (&'static [Line], &'static [u8], u8);

static SOURCES: [Source; 4] = [
    (PRINTED, b"", 0),
    (TYPED, b"", 6),
    (TYPED, b"3, -4\r", 0),
    (ASSIGNED, b"", 0),
];

// The table is named here alone, since each function that names it takes long to prove.
fn sources() -> &'static [Source] {
    &SOURCES
}

// Whether an engine refuses a source and writes nothing.
fn refuses(alloc: Global, engine: Engine, source: &[u8]) -> Result<bool, AllocError> {
    let answer = answer_of(alloc, engine, source)?;
    Ok(answer.report.status() == 1 && answer.written.is_empty())
}

// Whether `build` writes a file.
fn builds(alloc: Global, source: &[u8]) -> Result<bool, AllocError> {
    let answer = answer_of(alloc, Engine::Build, source)?;
    Ok(answer.report.status() == 0 && !answer.written.is_empty())
}

// Whether a run has this status.
fn runs(alloc: Global, source: &[u8], keys: &'static [u8], status: u8) -> Result<bool, AllocError> {
    let answer = answer_of(alloc, Engine::Run(keys), source)?;
    Ok(answer.report.status() == status)
}

// Whether the stepper answers.
fn steps(alloc: Global, source: &[u8]) -> Result<bool, AllocError> {
    let answer = answer_of(alloc, Engine::Step(b"e 7"), source)?;
    Ok(answer.report.status() == 0 && answer.written.as_slice() == b"7\n".as_slice())
}

// Whether each engine refuses a source and writes nothing, or else `build` writes a file, a run has this status and the
// stepper answers.
fn answers(
    alloc: Global,
    source: &[u8],
    build_status: u8,
    keys: &'static [u8],
    run_status: u8,
) -> Result<bool, AllocError> {
    Ok(match build_status {
        0 => {
            builds(alloc, source)?
                && runs(alloc, source, keys, run_status)?
                && steps(alloc, source)?
        }
        _ => {
            refuses(alloc, Engine::Build, source)?
                && refuses(alloc, Engine::Run(keys), source)?
                && refuses(alloc, Engine::Step(b"e 7"), source)?
        }
    })
}

// Whether each prefix of a source is answered. Leaves the last one that was tried.
fn answers_each(alloc: Global, whole: &Source, source: &mut Vec<u8>) -> Result<bool, Fail> {
    let (lines, keys, run_status) = whole;
    if !answers(alloc, source, 1, keys, *run_status)? {
        return Ok(false);
    }
    for (line, statuses) in *lines {
        for (byte, status) in line.iter().zip(*statuses) {
            source.push(*byte)?;
            let build_status = u8::from(*status != b'0');
            if !answers(alloc, source, build_status, keys, *run_status)? {
                return Ok(false);
            }
        }
    }
    Ok(true)
}

#[test]
fn each_prefix_of_a_source_is_answered(rt: HostRuntime) -> Result<(), Fail> {
    for whole in sources() {
        let mut source = Vec::new(rt.alloc());
        let holds = answers_each(rt.alloc(), whole, &mut source)?;
        assert!(rt; holds, "{source:?}");
    }
    Ok(())
}

// Whether an engine has this status, says this and writes nothing.
fn says(
    alloc: Global,
    engine: Engine,
    source: &[u8],
    status: u8,
    said: &[u8],
) -> Result<bool, Fail> {
    let answer = answer_of(alloc, engine, source)?;
    Ok(has_said(alloc, &answer.report, status, said)? && answer.written.is_empty())
}

// Whether each engine does so.
fn each_says(alloc: Global, source: &[u8], status: u8, said: &[u8]) -> Result<bool, Fail> {
    Ok(
        says(alloc, Engine::Build, source, status, said)?
            && says(alloc, Engine::Run(b""), source, status, said)?
            && says(alloc, Engine::Step(b"d\n"), source, status, said)?,
    )
}

// Whether each engine does so for a source of this many spaces.
fn each_says_at_spaces(
    alloc: Global,
    length: usize,
    status: u8,
    said: &[u8],
) -> Result<bool, Fail> {
    let spaces = vec![in alloc; b' '; length]?;
    each_says(alloc, &spaces, status, said)
}

#[test]
fn the_longest_source(rt: HostRuntime) -> Result<(), Fail> {
    let rows: [(usize, u8, &[u8]); 2] = [
        (1_048_576, 1, b"tbc: empty program\n"),
        (1_048_577, 3, b"tbc: read fault\n"),
    ];
    for &(length, status, said) in &rows {
        let holds = each_says_at_spaces(rt.alloc(), length, status, said)?;
        assert!(rt; holds, "{length}");
    }
    Ok(())
}
