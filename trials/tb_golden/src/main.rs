//! Worked rows of all layers: of the machine, of sources, of texts and files, of what is wrong with sources, and of
//! compiled programs. The rows lie in text files in the folder where the program runs: a row is a word that names a call,
//! and what the call is given. Each is written with what the call answers; comments and empty lines are written as they
//! are. The source text of the routine block lies there too: it is assembled, and compared with the block.
#![tactic(auto)]

mod check;
mod compiler;
mod format;
mod machine;
mod notation;
mod page;
mod source;
mod text;

use machine::Bench;
use notation::cut;
use page::Page;
use std::fs;
use std::process::ExitCode;
use std::rt::Files;

/// What rows are about.
#[derive(Clone, Copy)]
enum Subject {
    Words,
    Opcodes,
    Memory,
    Processor,
    Events,
    Runs,
    Sources,
    Assembly,
    Listings,
    Engines,
    Keys,
    Checks,
    Formats,
    Programs,
}

/// What a file holds.
#[derive(Clone, Copy)]
enum Contents {
    Rows(Subject),
    /// The source text of the routine block.
    Block,
    /// What steppers start with, and calls of them.
    Steps,
}

const FILES: [(&str, Contents); 26] = [
    ("machine/words.txt", Contents::Rows(Subject::Words)),
    ("machine/opcodes.txt", Contents::Rows(Subject::Opcodes)),
    ("machine/memory.txt", Contents::Rows(Subject::Memory)),
    (
        "machine/instructions.txt",
        Contents::Rows(Subject::Processor),
    ),
    ("machine/effects.txt", Contents::Rows(Subject::Processor)),
    ("machine/events.txt", Contents::Rows(Subject::Events)),
    ("machine/runs.txt", Contents::Rows(Subject::Runs)),
    ("source/grammar.txt", Contents::Rows(Subject::Sources)),
    ("source/refusals.txt", Contents::Rows(Subject::Sources)),
    ("source/parsing.txt", Contents::Rows(Subject::Sources)),
    ("source/runs.txt", Contents::Rows(Subject::Sources)),
    ("source/format.txt", Contents::Rows(Subject::Formats)),
    ("text/assembly.txt", Contents::Rows(Subject::Assembly)),
    ("text/block.asm", Contents::Block),
    ("text/listings.txt", Contents::Rows(Subject::Listings)),
    ("text/engines.txt", Contents::Rows(Subject::Engines)),
    ("text/keys.txt", Contents::Rows(Subject::Keys)),
    ("check/notes.txt", Contents::Rows(Subject::Checks)),
    ("check/faults.txt", Contents::Rows(Subject::Checks)),
    ("check/warnings.txt", Contents::Rows(Subject::Checks)),
    ("check/rows.txt", Contents::Rows(Subject::Checks)),
    ("check/streams.txt", Contents::Rows(Subject::Checks)),
    ("compiler/programs.txt", Contents::Rows(Subject::Programs)),
    ("compiler/refusals.txt", Contents::Rows(Subject::Programs)),
    ("compiler/steps.txt", Contents::Steps),
    ("compiler/commands.txt", Contents::Rows(Subject::Programs)),
];

/// What is written between a row and its answer, after the answer, and after the last row of a file.
fn frame(subject: Subject) -> (&'static str, &'static str, &'static str) {
    match subject {
        Subject::Sources => (" =>", "\n", "\n"),
        Subject::Assembly
        | Subject::Listings
        | Subject::Engines
        | Subject::Keys
        | Subject::Formats => (" => ", "\n", ""),
        Subject::Checks => ("\n", "", ""),
        Subject::Programs => (" => ", "", "\n"),
        _ => (" =>", "\n", ""),
    }
}

// Appends what the call that a row names answers.
fn put_answer<R: Files + AllocGlobal>(
    rt: &R,
    page: &mut Page,
    bench: &mut Bench,
    subject: Subject,
    row: &str,
) {
    let (word, rest) = cut(row);
    match subject {
        Subject::Words => machine::words::put_answer(page, word, rest),
        Subject::Opcodes => machine::opcodes::put_answer(page, word, rest),
        Subject::Memory => machine::memory::put_answer(page, bench, word, rest),
        Subject::Processor => machine::processor::put_answer(page, bench, word, rest),
        Subject::Events => machine::events::put_answer(page, bench, word, rest),
        Subject::Runs => machine::runs::put_answer(page, bench, word, rest),
        Subject::Sources => source::put_answer(page, word, rest),
        Subject::Assembly => text::assembly::put_answer(page, word, rest),
        Subject::Listings => text::listings::put_answer(page, word, rest),
        Subject::Engines => text::engines::put_answer(page, word, rest, row),
        Subject::Keys => text::keys::put_answer(page, word, rest),
        Subject::Checks => check::put_answer(page, word, rest),
        Subject::Formats => format::put_answer(page, word, rest),
        Subject::Programs => compiler::put_answer(rt, page, word, rest),
    }
}

// Appends the rows of a file with their answers, up to one that has none.
fn put_rows<R: Files + AllocGlobal>(
    rt: &R,
    page: &mut Page,
    bench: &mut Bench,
    subject: Subject,
    rows: &str,
) {
    let (between, after, end) = frame(subject);
    for row in rows.lines() {
        if page.has_failed() {
            return;
        }
        page.put(row);
        if row.is_empty() || row.starts_with('#') {
            page.put("\n");
        } else {
            page.put(between);
            put_answer(rt, page, bench, subject, row);
            page.put(after);
        }
    }
    page.put(end);
}

fn put_file<R: Files + AllocGlobal>(
    rt: &R,
    page: &mut Page,
    bench: &mut Bench,
    path: &'static str,
    contents: Contents,
) {
    let read = fs::read_to_string(rt, path);
    if let Some(text) = page.held(read) {
        match contents {
            Contents::Rows(subject) => put_rows(rt, page, bench, subject, text.as_str()),
            Contents::Block => text::block::put_block(page, text.as_str()),
            Contents::Steps => compiler::steps::put_blocks(page, text.as_str()),
        }
    }
}

fn put_files<R: Files + AllocGlobal>(rt: &R, page: &mut Page) {
    let bench = Bench::new(rt.alloc());
    if let Some(mut bench) = page.held(bench) {
        for (path, contents) in FILES {
            put_file(rt, page, &mut bench, path, contents);
        }
    }
}

fn main(rt: HostRuntime) -> ExitCode {
    source::laws();
    let mut page = Page::new(rt.alloc());
    put_files(&rt, &mut page);
    // Nobody can be told that the standard streams fail.
    let _ = print!(rt; "{}", page.text());
    if page.has_failed() {
        let _ = eprintln!(rt; "the last row has no answer");
        return ExitCode::FAILURE;
    }
    ExitCode::SUCCESS
}
