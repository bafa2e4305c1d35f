//! Streams that fail after each number of bytes, and writers that hand bytes on when they are flushed.
use crate::cut::engines::{Engine, answer_of, call};
use std::alloc::{AllocError, Global};
use std::test::Fail;
use tb_driver::{End, Outcome, Tracked};
use tb_test_support::{FailingReader, FailingWriter, HoldingWriter};

/// A source that asks for two numbers and shows their sum. It is warned of one jump.
const SOURCE: &[u8] = b"10 INPUT A,B\n20 PRINT \"SUM\",A+B\n30 END\n40 GOTO 99\n";

/// A source with a line to go to and a variable to read.
const STEPPED: &[u8] = b"10 A=5\n20 END\n";

/// Each command of the stepper.
const COMMANDS: &[u8] = b"s\nb\nb\ng 20\nv A\ne A*2-1\ne 1/0\nd\nx\nq\n";

/// Engines, and the source of each.
static ENGINES: [(Engine, &[u8]); 3] = [
    (Engine::Build, SOURCE),
    (Engine::Run(b"3, -4\r"), SOURCE),
    (Engine::Step(COMMANDS), STEPPED),
];

// The table is named here alone, since each function that names it takes long to prove.
fn engines() -> &'static [(Engine, &'static [u8])] {
    &ENGINES
}

// Whether an engine ends in a read fault and writes nothing if its reader fails.
fn notices_reader(
    alloc: Global,
    engine: Engine,
    source: &[u8],
    until_fault: usize,
    most: usize,
) -> Result<bool, AllocError> {
    let mut reader = Tracked::new(FailingReader::new(source, until_fault, most));
    let mut out = Tracked::new(Vec::new(alloc));
    let report = call(alloc, engine, &mut reader, &mut out)?;
    Ok(
        report.outcome == Outcome::ReadFault
            && (report.status(), reader.failures()) == (3, 1)
            && out.stream.is_empty()
            && report.warnings.is_empty(),
    )
}

#[test]
fn a_reader_that_fails(rt: HostRuntime) -> Result<(), Fail> {
    for (engine, source) in engines() {
        for until_fault in 0..=source.len() {
            for &most in &[1, 7, 4096] {
                let holds = notices_reader(rt.alloc(), *engine, source, until_fault, most)?;
                assert!(rt; holds, "after {until_fault}");
            }
        }
    }
    Ok(())
}

// Whether an engine writes as much of the whole as its writer takes, and ends in a write fault if that is not all.
fn notices_writer(
    alloc: Global,
    engine: Engine,
    source: &[u8],
    whole: &[u8],
    until_fault: usize,
    most: usize,
) -> Result<bool, AllocError> {
    let mut out = Tracked::new(FailingWriter::new(alloc, until_fault, most));
    let report = call(alloc, engine, &mut Tracked::new(source), &mut out)?;
    let (outcome, status) = if until_fault < whole.len() {
        (Outcome::WriteFault, 3)
    } else {
        (Outcome::Ended(End::Done), 0)
    };
    Ok(
        report.outcome == outcome
            && report.status() == status
            && whole.get(..until_fault) == Some(out.stream.taken.as_slice()),
    )
}

// The first length of the whole after which a failure is not noticed.
fn first_unnoticed_of(
    alloc: Global,
    engine: Engine,
    source: &[u8],
    whole: &[u8],
) -> Result<Option<usize>, Fail> {
    for until_fault in 0..=whole.len() {
        for &most in &[1, 100, 4096] {
            if !notices_writer(alloc, engine, source, whole, until_fault, most)? {
                return Ok(Some(until_fault));
            }
        }
    }
    Ok(None)
}

// The first length of what an engine writes after which a failure is not noticed.
fn first_unnoticed(alloc: Global, engine: Engine, source: &[u8]) -> Result<Option<usize>, Fail> {
    let answer = answer_of(alloc, engine, source)?;
    first_unnoticed_of(alloc, engine, source, &answer.written)
}

#[test]
fn a_writer_that_fails(rt: HostRuntime) -> Result<(), Fail> {
    for (engine, source) in engines() {
        assert_eq!(rt; first_unnoticed(rt.alloc(), *engine, source)?, None);
    }
    Ok(())
}

// Whether an engine hands on the whole if its writer holds bytes back until it is flushed, or ends in a write fault if
// the flush fails.
fn flushes(
    alloc: Global,
    engine: Engine,
    source: &[u8],
    whole: &[u8],
    fails: bool,
) -> Result<bool, AllocError> {
    let mut out = Tracked::new(HoldingWriter::new(alloc, fails));
    let report = call(alloc, engine, &mut Tracked::new(source), &mut out)?;
    let (outcome, handed_on) = if fails {
        (Outcome::WriteFault, 0)
    } else {
        (Outcome::Ended(End::Done), whole.len())
    };
    let held = out.stream;
    Ok(report.outcome == outcome && held.handed_on == handed_on && held.taken.as_slice() == whole)
}

// Whether it does so both if no flush fails and if each does.
fn always_flushes(alloc: Global, engine: Engine, source: &[u8]) -> Result<bool, Fail> {
    let answer = answer_of(alloc, engine, source)?;
    Ok(
        flushes(alloc, engine, source, &answer.written, false)?
            && flushes(alloc, engine, source, &answer.written, true)?,
    )
}

#[test]
fn a_writer_that_holds_bytes_back(rt: HostRuntime) -> Result<(), Fail> {
    for (engine, source) in engines() {
        let holds = always_flushes(rt.alloc(), *engine, source)?;
        assert!(rt; holds, "{engine:?}");
    }
    Ok(())
}
