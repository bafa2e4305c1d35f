//! PRG files that are stepped through: what is answered, what is refused, and streams that fail.
use std::alloc::{AllocError, Global};
use std::test::Fail;
use tb_driver::{End, Outcome, Tracked};
use tb_engine_sources::step_prg;
use tb_test_support::{FailingReader, FailingWriter, no_keys};

/// A routine at `$C000`: it sends an H.
const ROUTINE: &[u8] = b"\x00\xc0\xa9\x48\x20\xd2\xff\x60";

/// Each command, and steps back to the start.
const COMMANDS: &[u8] = b"b\ns\ns\ns\ns\ns\ng 10\nv A\ne 1\nd\nx\nb\nq\ns\n";

/// The instructions of the routine one after the other, and what is answered without a source.
const ANSWERS: &[u8] = b"nothing back\n\
    C002 A=48 X=00 Y=00 S=F0 P=30 - running\n\
    FFD2 A=48 X=00 Y=00 S=EE P=30 - running\n\
    C005 A=48 X=00 Y=00 S=F0 P=30 - running\n\
    A100 A=48 X=00 Y=00 S=F2 P=30 - returned\n\
    A100 A=48 X=00 Y=00 S=F2 P=30 - returned\n\
    no source\nno source\nno source\nno source\nwhat?\n\
    C005 A=48 X=00 Y=00 S=F0 P=30 - running\n";

/// How many steps a walk may take.
const LIMIT: u64 = 100;

/// Bytes that are no PRG file, or that don't lie in RAM.
static REFUSED: [&[u8]; 4] = [b"", b"\x01", b"\xff\xff\x60\x60", b"\x00\xd0\x60"];

// The status of stepping through a file by the commands, and what was written.
fn stepped(alloc: Global, file: &[u8]) -> (u8, Vec<u8>) {
    let mut out = Tracked::new(Vec::new(alloc));
    let outcome = step_prg(
        alloc,
        &mut Tracked::new(file),
        &mut Tracked::new(COMMANDS),
        &mut out,
        no_keys(alloc),
        LIMIT,
    );
    (outcome.status(), out.stream)
}

#[test]
fn a_routine_that_is_stepped(rt: HostRuntime) -> Result<(), Fail> {
    let (status, written) = stepped(rt.alloc(), ROUTINE);
    assert_eq!(rt; status, 0);
    assert_eq!(rt; written.as_slice(), ANSWERS);
    Ok(())
}

#[test]
fn files_that_are_not_stepped(rt: HostRuntime) -> Result<(), Fail> {
    for file in &REFUSED {
        let (status, written) = stepped(rt.alloc(), file);
        assert_eq!(rt; status, 1);
        assert!(rt; written.is_empty());
    }
    Ok(())
}

// Whether each of the two readers that fails ends in a read fault, and nothing is written.
fn notices_readers(alloc: Global, until_fault: usize) -> Result<bool, AllocError> {
    let mut out = Tracked::new(Vec::new(alloc));
    let of_file = step_prg(
        alloc,
        &mut Tracked::new(FailingReader::new(ROUTINE, until_fault, 3)),
        &mut Tracked::new(COMMANDS),
        &mut out,
        no_keys(alloc),
        LIMIT,
    );
    let of_commands = step_prg(
        alloc,
        &mut Tracked::new(ROUTINE),
        &mut Tracked::new(FailingReader::new(COMMANDS, until_fault, 3)),
        &mut out,
        no_keys(alloc),
        LIMIT,
    );
    Ok(of_file == Outcome::ReadFault && of_commands == Outcome::ReadFault && out.stream.is_empty())
}

// Whether as much is written as a writer takes, and that is a write fault if it is not all.
fn notices_writer(alloc: Global, until_fault: usize) -> bool {
    let mut out = Tracked::new(FailingWriter::new(alloc, until_fault, 100));
    let outcome = step_prg(
        alloc,
        &mut Tracked::new(ROUTINE),
        &mut Tracked::new(COMMANDS),
        &mut out,
        no_keys(alloc),
        LIMIT,
    );
    let wanted = if until_fault < ANSWERS.len() {
        Outcome::WriteFault
    } else {
        Outcome::Ended(End::Done)
    };
    outcome == wanted && ANSWERS.get(..until_fault) == Some(out.stream.taken.as_slice())
}

#[test]
fn streams_that_fail_at_a_prg(rt: HostRuntime) -> Result<(), Fail> {
    for until_fault in 0..=ROUTINE.len() {
        assert!(rt;
            notices_readers(rt.alloc(), until_fault)?,
            "after {until_fault}"
        );
    }
    for until_fault in [0, 1, 12, 13, 100, ANSWERS.len() - 1, ANSWERS.len()] {
        assert!(rt;
            notices_writer(rt.alloc(), until_fault),
            "after {until_fault}"
        );
    }
    Ok(())
}
