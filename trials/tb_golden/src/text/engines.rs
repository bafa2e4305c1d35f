//! The engines, and what they answer.
use crate::notation::{bytes_of, cut, decoded, hex_word, number};
use crate::page::Page;
use crate::text::failing::{put_failing_readers, put_failing_writers, put_flushed, put_prefixes};
use crate::text::writing::{put_bytes, put_text};
use std::alloc::Global;
use std::io::{Read, Write};
use tb_engines::{Outcome, asm_text, dis_text, run_prg};
use tb_kernal::{Keyboard, Quiet, Rude};
use tb_engine_streams::Tracked;
use tb_test_support::no_keys;

/// The engines that read one file and write one.
#[derive(Clone, Copy, Drop)]
pub enum Engine {
    Run(u64),
    Assemble(u16),
    List,
}

/// What an engine wrote, and how it ended.
#[derive(Drop)]
pub struct Ending {
    pub outcome: Outcome,
    pub wrote: Vec<u8>,
}

/// Appends the answer of a row.
pub fn put_answer(page: &mut Page, name: &str, rest: &str, row: &str) {
    match name {
        "keyed" => put_keyed(page, rest),
        "repeated" => put_repeated(page, rest),
        "faults" => put_faults(page),
        "run" | "asm" | "dis" => put_job(page, "", row),
        _ => put_job(page, name, rest),
    }
}

// What is tried on an engine and its input.
fn put_job(page: &mut Page, name: &str, row: &str) {
    let (word, rest) = cut(row);
    let (engine, input) = job_of(page, word, rest);
    match name {
        "" => put_whole(page, engine, &input),
        "prefixes" => put_prefixes(page, engine, &input),
        "reader-fails" => put_failing_readers(page, engine, &input),
        "writer-fails" => put_failing_writers(page, engine, &input),
        "flushed" => put_flushed(page, engine, &input),
        _ => page.fail(),
    }
}

fn job_of(page: &mut Page, word: &str, rest: &str) -> (Engine, Vec<u8>) {
    let (first, input) = cut(rest);
    match word {
        "run" => (Engine::Run(number(page, first)), bytes_of(page, input)),
        "asm" => (
            Engine::Assemble(hex_word(page, first)),
            decoded(page, input),
        ),
        _ => (Engine::List, bytes_of(page, rest)),
    }
}

/// Calls an engine, with no keys for a program and a quiet outside.
pub fn call<R: Read, W: Write>(
    alloc: Global,
    engine: Engine,
    reader: &mut Tracked<R>,
    writer: &mut Tracked<W>,
) -> Outcome {
    match engine {
        Engine::Run(limit) => run_prg(alloc, reader, writer, no_keys(alloc), limit, &mut Quiet),
        Engine::Assemble(at) => asm_text(alloc, reader, writer, at),
        Engine::List => dis_text(alloc, reader, writer),
    }
}

/// Calls an engine over streams that do not fail.
pub fn ending_of(alloc: Global, engine: Engine, input: &[u8]) -> Ending {
    let mut out = Tracked::new(Vec::new(alloc));
    let outcome = call(alloc, engine, &mut Tracked::new(input), &mut out);
    Ending {
        outcome,
        wrote: out.stream,
    }
}

/// Appends the status, and the text for standard error.
pub fn put_status(page: &mut Page, outcome: Outcome) {
    page.put(outcome.status());
    page.put(" \"");
    page.put(outcome);
    page.put("\"");
}

/// Appends the status, the text for standard error, and what was written: from the assembler bytes, else a text.
pub fn put_ending(page: &mut Page, engine: Engine, ending: &Ending) {
    put_status(page, ending.outcome);
    page.put(" ");
    match engine {
        Engine::Assemble(_) => put_bytes(page, &ending.wrote),
        Engine::Run(_) | Engine::List => put_text(page, &ending.wrote),
    }
}

fn put_whole(page: &mut Page, engine: Engine, input: &[u8]) {
    let ending = ending_of(page.alloc(), engine, input);
    put_ending(page, engine, &ending);
}

// Runs a program that is given keys, with a hostile ROM.
fn put_keyed(page: &mut Page, row: &str) {
    let (limit, rest) = cut(row);
    let limit = number(page, limit);
    let (text, rest) = cut(rest);
    let (answers, file) = cut(rest);
    let keyboard = Keyboard {
        text: bytes_of(page, text),
        answers: bytes_of(page, answers),
    };
    let file = bytes_of(page, file);
    let ending = keyed(page.alloc(), &file, keyboard, limit);
    put_ending(page, Engine::Run(limit), &ending);
}

fn keyed(alloc: Global, file: &[u8], keyboard: Keyboard, limit: u64) -> Ending {
    let mut writer = Tracked::new(Vec::new(alloc));
    let mut reader = Tracked::new(file);
    let outcome = run_prg(
        alloc,
        &mut reader,
        &mut writer,
        keyboard,
        limit,
        &mut Rude::new(1),
    );
    Ending {
        outcome,
        wrote: writer.stream,
    }
}

// Calls an engine with one byte repeated this many times as its input.
fn put_repeated(page: &mut Page, row: &str) {
    let (count, rest) = cut(row);
    let (byte, rest) = cut(rest);
    let mut input = Vec::new(page.alloc());
    for _ in 0..number(page, count) {
        let grown = input.extend_from_slice(&bytes_of(page, byte));
        page.held(grown);
    }
    let (word, rest) = cut(rest);
    let (engine, _) = job_of(page, word, rest);
    put_whole(page, engine, &input);
}

fn put_faults(page: &mut Page) {
    put_status(page, Outcome::ReadFault);
    page.put(", ");
    put_status(page, Outcome::WriteFault);
    page.put(", ");
    put_status(page, Outcome::NoMemory);
}
