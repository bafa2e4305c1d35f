//! PRG files that are debugged: both ways by instructions, what is refused, and streams that fail.
use std::alloc::{AllocError, Global};
use std::io::{Read, Write};
use std::test::Fail;
use tb_debug_engine::{NamedPrg, Rom, Setting, Streams, debug_prg};
use tb_engines::{End, Outcome};
use tb_engine_streams::Tracked;
use tb_test_support::{FailingReader, FailingWriter, no_keys};
use tb_kernal::Unwatched;

/// A routine at `$C000` that sends an H, X times, for X from 2 down to 1.
const ROUTINE: &[u8] = b"\x00\xc0\xa2\x02\xa9\x48\x20\xd2\xff\xca\xd0\xf8\x60";

/// Commands on the routine after `> `, and their answers.
const DIALOGUE: &[u8] = b"LDX #$02 ; C000
> n
LDA #$48 ; C002
> s
JSR $FFD2 ; C004
>\x20
--
> n
| H
DEX ; C007
> p
--
> t 0
LDX #$02 ; C000
> b $C008
set
> b 49156
set
> b
$C004
$C008
> c
JSR $FFD2 ; C004
> c
| H
BNE $C002 ; C008
> rc
JSR $FFD2 ; C004
> g $c002
| H
LDA #$48 ; C002
> l
no source
> l 49152
no source
> v
no source
> v A
no source
> e 1
no source
> r
no source
> w A
no source
> f
no source
> b $C00
what?
> g C002
what?
> b $C008
cleared
> b $C004
cleared
> b
none
> o
| H
> m C000 3
C000 A2 02 A9
> i
LDA #$48 ; C002
JSR $FFD2 ; C004
DEX ; C007
BNE $C002 ; C008
RTS ; C00A
BRK ; C00B
BRK ; C00C
BRK ; C00D
> k x
typed
> x
C002 A=48 X=01 Y=00 S=F0 P=30 - running
> c
| H
returned
> p 2
BNE $C002 ; C008
> q
";

/// How many events a command may take.
const LIMIT: u64 = 100;

/// Bytes that are no PRG file, or that don't lie in RAM.
static REFUSED: [&[u8]; 4] = [b"", b"\x01", b"\xff\xff\x60\x60", b"\x00\xd0\x60"];

// Debugs a file with no keys and with a quiet ROM.
fn debugged<R: Read, W: Write>(
    alloc: Global,
    file: &[u8],
    streams: &mut Streams<R, W>,
) -> Outcome {
    let setting = Setting {
        rom: Rom::Quiet,
        limit: LIMIT,
        prompts: false,
    };
    let prg = NamedPrg { file, labels: &[] };
    debug_prg(
        alloc,
        prg,
        no_keys(alloc),
        setting,
        streams,
        &mut Unwatched,
    )
}

// The commands of the dialogue, one on a line.
fn commands(alloc: Global) -> Result<Vec<u8>, AllocError> {
    let mut commands = Vec::new(alloc);
    for line in DIALOGUE.split_inclusive(|byte| *byte == b'\n') {
        if let Some(command) = line.strip_prefix(b"> ") {
            commands.extend_from_slice(command)?;
        }
    }
    Ok(commands)
}

// Its answers.
fn answers(alloc: Global) -> Result<Vec<u8>, AllocError> {
    let mut answers = Vec::new(alloc);
    for line in DIALOGUE.split_inclusive(|byte| *byte == b'\n') {
        if !line.starts_with(b"> ") {
            answers.extend_from_slice(line)?;
        }
    }
    Ok(answers)
}

#[test]
fn a_dialogue_without_a_source(rt: HostRuntime) -> Result<(), Fail> {
    let commands = commands(rt.alloc())?;
    let mut streams = Streams {
        commands: Tracked::new(commands.as_slice()),
        writer: Tracked::new(Vec::new(rt.alloc())),
    };
    let outcome = debugged(rt.alloc(), ROUTINE, &mut streams);
    assert_eq!(rt; outcome, Outcome::Ended(End::Done));
    assert_eq!(rt; streams.writer.stream, answers(rt.alloc())?);
    Ok(())
}

// A file that can't be started is refused before anything is read or written.
#[test]
fn files_that_are_not_debugged(rt: HostRuntime) -> Result<(), Fail> {
    for file in &REFUSED {
        let mut streams = Streams {
            commands: Tracked::new(b"n\n".as_slice()),
            writer: Tracked::new(Vec::new(rt.alloc())),
        };
        let outcome = debugged(rt.alloc(), file, &mut streams);
        assert_eq!(rt; outcome.status(), 1);
        assert!(rt; streams.writer.stream.is_empty());
        assert_eq!(rt; streams.commands.stream, b"n\n".as_slice());
    }
    Ok(())
}

// A reader that fails after any number of bytes ends in a read fault, but for one that has handed on the end.
#[test]
fn commands_that_cannot_be_read(rt: HostRuntime) -> Result<(), Fail> {
    let commands = commands(rt.alloc())?;
    for until_fault in 0..commands.len().saturating_sub(2) {
        let mut streams = Streams {
            commands: Tracked::new(FailingReader::new(commands.as_slice(), until_fault, 3)),
            writer: Tracked::new(Vec::new(rt.alloc())),
        };
        let outcome = debugged(rt.alloc(), ROUTINE, &mut streams);
        assert_eq!(rt; outcome, Outcome::ReadFault);
        assert!(rt; answers(rt.alloc())?.starts_with(streams.writer.stream.as_slice()));
    }
    Ok(())
}

// As much is written as a writer takes.
#[test]
fn answers_that_cannot_be_written(rt: HostRuntime) -> Result<(), Fail> {
    let commands = commands(rt.alloc())?;
    let answers = answers(rt.alloc())?;
    for until_fault in 0..answers.len() {
        let mut streams = Streams {
            commands: Tracked::new(commands.as_slice()),
            writer: Tracked::new(FailingWriter::new(rt.alloc(), until_fault, 100)),
        };
        let outcome = debugged(rt.alloc(), ROUTINE, &mut streams);
        assert_eq!(rt; outcome, Outcome::WriteFault);
        assert_eq!(rt; streams.writer.stream.taken.as_slice(), &answers[..until_fault]);
    }
    Ok(())
}
