//! Streams that fail, hand on few bytes, and count.
use crate::debug::programs::LOOP;
use std::alloc::Global;
use std::io::{Read, Write};
use std::test::Fail;
use tb_codegen::TinyBasic;
use tb_compiled::CompileSettings;
use tb_debug_engine::{Rom, Setting, Streams, debug};
use tb_engines::{Failure, Outcome};
use tb_engine_sources::{CompiledSource, read_source};
use tb_engine_streams::Tracked;
use tb_test_support::{CountingWriter, FailingReader, FailingWriter, HoldingWriter, no_keys};
use tb_kernal::Unwatched;

/// Each command once, and some lines that are no commands.
const COMMANDS: &[u8] =
    b"n\nn 2\n\np\nb 30\nb\nc\nrc\nw A\nf\nc\ng 50\nt 1\nl\nl 40\nv\nv A\ne A+1\nr\no\nk x\ns 3\nx\n\
m C000 3\ni\nh\n\n\r\nz\nb 31\nm 0000 2\nq\nn\n";

// Debugs with no keys and with a quiet ROM.
fn debugs_so<R: Read, W: Write>(
    alloc: Global,
    source: &CompiledSource,
    prompts: bool,
    streams: &mut Streams<R, W>,
) -> Outcome {
    let setting = Setting {
        rom: Rom::Quiet,
        limit: 100_000,
        prompts,
    };
    debug(
        alloc,
        source,
        no_keys(alloc),
        setting,
        streams,
        &mut Unwatched,
    )
}

/// Debugs as at a terminal, with no keys and with a quiet ROM.
pub fn debugs_at_terminal<R: Read, W: Write>(
    alloc: Global,
    source: &CompiledSource,
    streams: &mut Streams<R, W>,
) -> Outcome {
    debugs_so(alloc, source, true, streams)
}

/// Debugs as in a pipe, with no keys and with a quiet ROM.
pub fn debugs<R: Read, W: Write>(
    alloc: Global,
    source: &CompiledSource,
    streams: &mut Streams<R, W>,
) -> Outcome {
    debugs_so(alloc, source, false, streams)
}

pub fn source_of(alloc: Global, source: &[u8]) -> Result<CompiledSource, Fail> {
    Ok(
        read_source(
            &TinyBasic,
            alloc,
            &mut Tracked::new(source),
            CompileSettings::by_cost(0),
        )
        .ok()
        .ok_or("no source")?,
    )
}

// All that is written in answer to these commands.
fn written(alloc: Global, source: &CompiledSource, commands: &[u8]) -> Vec<u8> {
    let mut streams = Streams {
        commands: Tracked::new(commands),
        writer: Tracked::new(Vec::new(alloc)),
    };
    debugs(alloc, source, &mut streams);
    streams.writer.stream
}

// The commands up to the line in which they are cut.
fn whole_lines(commands: &[u8]) -> &[u8] {
    match commands.iter().rposition(|byte| *byte == b'\n') {
        Some(end) => &commands[..end + 1],
        None => &[],
    }
}

// Whether the whole lines are answered as in all that is written, and a last line without its end as if it had one.
fn is_cut(
    alloc: Global,
    source: &CompiledSource,
    all: &[u8],
    commands: &[u8],
) -> Result<bool, Fail> {
    let lines = whole_lines(commands);
    let before = written(alloc, source, lines);
    if lines.len() == commands.len() {
        return Ok(all.starts_with(&before));
    }
    let mut ended = Vec::from_slice(alloc, commands)?;
    ended.push(b'\n')?;
    let text = written(alloc, source, commands);
    Ok(
        all.starts_with(&before)
            && text.starts_with(&before)
            && text == written(alloc, source, &ended),
    )
}

#[test]
fn each_cut_of_the_commands(rt: HostRuntime) -> Result<(), Fail> {
    let source = source_of(rt.alloc(), LOOP)?;
    let all = written(rt.alloc(), &source, COMMANDS);
    for cut in 0..COMMANDS.len() {
        assert!(rt;
            is_cut(rt.alloc(), &source, &all, &COMMANDS[..cut])?,
            "{cut}"
        );
    }
    Ok(())
}

// Whether a reader that fails ends in a fault, and a prefix of all is written.
fn reader_fails(alloc: Global, source: &CompiledSource, all: &[u8], until_fault: usize) -> bool {
    let mut streams = Streams {
        commands: Tracked::new(FailingReader::new(COMMANDS, until_fault, 3)),
        writer: Tracked::new(Vec::new(alloc)),
    };
    let status = debugs(alloc, source, &mut streams).status();
    status == 3 && all.starts_with(&streams.writer.stream)
}

#[test]
fn a_source_that_fails(rt: HostRuntime) -> Result<(), Fail> {
    for until_fault in 0..=LOOP.len() {
        let mut reader = Tracked::new(FailingReader::new(LOOP, until_fault, 3));
        let settings = CompileSettings::by_cost(0);
        let source = read_source(&TinyBasic, rt.alloc(), &mut reader, settings);
        assert!(rt; matches!(source, Err(Failure::ReadFault)), "{until_fault}");
    }
    Ok(())
}

#[test]
fn a_reader_that_fails(rt: HostRuntime) -> Result<(), Fail> {
    let source = source_of(rt.alloc(), LOOP)?;
    let all = written(rt.alloc(), &source, COMMANDS);
    for until_fault in 0..COMMANDS.len() - 3 {
        assert!(rt;
            reader_fails(rt.alloc(), &source, &all, until_fault),
            "{until_fault}"
        );
    }
    Ok(())
}

// Whether a writer that fails after `until_fault` bytes ends in a fault, and has taken these.
fn writer_fails(alloc: Global, source: &CompiledSource, all: &[u8], until_fault: usize) -> bool {
    let mut streams = Streams {
        commands: Tracked::new(COMMANDS),
        writer: Tracked::new(FailingWriter::new(alloc, until_fault, 5)),
    };
    let status = debugs(alloc, source, &mut streams).status();
    status == 3 && Some(streams.writer.stream.taken.as_slice()) == all.get(..until_fault)
}

#[test]
fn a_writer_that_fails(rt: HostRuntime) -> Result<(), Fail> {
    let source = source_of(rt.alloc(), LOOP)?;
    let all = written(rt.alloc(), &source, COMMANDS);
    for until_fault in 0..all.len() {
        assert!(rt;
            writer_fails(rt.alloc(), &source, &all, until_fault),
            "{until_fault}"
        );
    }
    Ok(())
}

#[test]
fn a_flush_that_fails(rt: HostRuntime) -> Result<(), Fail> {
    let source = source_of(rt.alloc(), LOOP)?;
    let mut streams = Streams {
        commands: Tracked::new(COMMANDS),
        writer: Tracked::new(HoldingWriter::new(rt.alloc(), true)),
    };
    let status = debugs(rt.alloc(), &source, &mut streams).status();
    let taken = streams.writer.stream.taken.as_slice();
    assert_eq!(rt; (status, taken), (3, b"10 LET A=3\n".as_slice()));
    Ok(())
}

#[test]
fn each_answer_is_flushed_once(rt: HostRuntime) -> Result<(), Fail> {
    let source = source_of(rt.alloc(), LOOP)?;
    let mut streams = Streams {
        commands: Tracked::new(b"n\nv\nn\nq\n".as_slice()),
        writer: Tracked::new(CountingWriter::new(rt.alloc())),
    };
    debugs(rt.alloc(), &source, &mut streams);
    assert_eq!(rt;
        streams.writer.stream.flushed_at.as_slice(),
        [11, 22, 26, 43].as_slice()
    );
    Ok(())
}
