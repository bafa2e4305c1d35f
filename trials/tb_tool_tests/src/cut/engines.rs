//! What the rows share: the engines that compile a source, called with one reader and one writer.
use std::alloc::{AllocError, Global};
use std::io::{Read, Write};
use std::test::Fail;
use tb_driver::{Report, Tracked, build, run_text, step_text};
use tb_kernal::Quiet;
use tb_test_support::{keyboard_of, no_keys};

/// An engine that compiles a source.
#[derive(Clone, Copy, PartialEq, Eq, Debug, Drop)]
pub enum Engine {
    Build,
    /// With this text on the keyboard.
    Run(&'static [u8]),
    /// By these commands, with no text on the keyboard.
    Step(&'static [u8]),
}

/// The seed of RND.
const SEED: u16 = 1;

/// How many events a program may take.
const LIMIT: u64 = 10_000;

/// Calls an engine.
pub fn call<R: Read, W: Write>(
    alloc: Global,
    engine: Engine,
    reader: &mut Tracked<R>,
    writer: &mut Tracked<W>,
) -> Result<Report, AllocError> {
    match engine {
        Engine::Build => Ok(build(alloc, reader, writer, SEED)),
        Engine::Run(keys) => {
            let keyboard = keyboard_of(alloc, keys, b"")?;
            Ok(run_text(alloc, reader, writer, SEED, keyboard, LIMIT, &mut Quiet))
        }
        Engine::Step(commands) => step(alloc, reader, &mut Tracked::new(commands), writer),
    }
}

/// Steps through a source by the commands of a reader, with no text on the keyboard.
pub fn step<R: Read, C: Read, W: Write>(
    alloc: Global,
    source: &mut Tracked<R>,
    commands: &mut Tracked<C>,
    writer: &mut Tracked<W>,
) -> Result<Report, AllocError> {
    Ok(step_text(alloc, source, commands, writer, SEED, no_keys(alloc), LIMIT))
}

/// What an engine answered, and what it wrote.
#[derive(Debug, Drop)]
pub struct Answer {
    pub report: Report,
    pub written: Vec<u8>,
}

/// What an engine answers and writes if no stream fails.
pub fn answer_of(alloc: Global, engine: Engine, source: &[u8]) -> Result<Answer, AllocError> {
    let mut out = Tracked::new(Vec::new(alloc));
    let report = call(alloc, engine, &mut Tracked::new(source), &mut out)?;
    Ok(Answer {
        report,
        written: out.stream,
    })
}

/// Whether a report has this status and says this.
pub fn has_said(alloc: Global, report: &Report, status: u8, said: &[u8]) -> Result<bool, Fail> {
    let text = format!(in alloc; "{report}")?;
    Ok(report.status() == status && text.as_bytes() == said)
}
