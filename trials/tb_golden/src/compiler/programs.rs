//! What the compiler makes: files, the addresses of lines, warnings, and what programs show.
use crate::compiler::sources::{compiled, push_lines, source_of};
use crate::notation::{cut, hex_word, number, word};
use crate::page::Page;
use std::alloc::Global;
use tb_codegen::{Options, compile};
use tb_compiled::Compiled;
use tb_driver::{Tracked, build, run_prg};
use tb_kernal::Quiet;
use tb_test_support::no_keys;

// The file that `build` writes for a source, as its bytes.
fn built(alloc: Global, source: &[u8], seed: u16) -> Vec<u8> {
    let mut file = Tracked::new(Vec::new(alloc));
    let _ = build(alloc, &mut Tracked::new(source), &mut file, seed);
    file.stream
}

fn put_bytes(page: &mut Page, bytes: &[u8]) {
    for byte in bytes {
        page.put_byte(*byte);
    }
}

// Appends how a file begins: the load address, a line of BASIC, and the first instruction.
fn put_head(page: &mut Page, file: &[u8]) {
    put_bytes(page, file.get(..15).unwrap_or(file));
}

// Appends how a file's program ends, and what it shows.
fn put_outcome(page: &mut Page, file: &[u8]) {
    let alloc = page.alloc();
    let mut screen = Tracked::new(Vec::new(alloc));
    let mut file = Tracked::new(file);
    let outcome = run_prg(
        alloc,
        &mut file,
        &mut screen,
        no_keys(alloc),
        100_000,
        &mut Quiet,
    );
    page.put_debug(&outcome);
    page.put(": ");
    put_shown(page, &screen.stream);
    page.put("\n");
}

// Appends bytes of ASCII, the end of a line as `\n`.
fn put_shown(page: &mut Page, bytes: &[u8]) {
    for (index, line) in bytes.split(|byte| *byte == b'\n').enumerate() {
        if 0 < index {
            page.put("\\n");
        }
        page.put_ascii(line);
    }
}

/// Appends a built file's head, whether it is the compiler's, and what it shows.
pub fn put_build(page: &mut Page, row: &str) {
    let (seed, source) = cut(row);
    let seed = word(page, seed);
    let source = source_of(page, source);
    let file = built(page.alloc(), &source, seed);
    if let Some(program) = compiled(page, &source, seed) {
        put_head(page, &file);
        let is_same = file.as_slice() == program.prg();
        page.put(", as compile has it: ");
        page.put(is_same);
        page.put(", ");
        put_outcome(page, &file);
    }
}

/// Appends the head of a source's file, and whether another source makes the same file.
pub fn put_alike(page: &mut Page, row: &str) {
    let (one, other) = row.split_once(" | ").unwrap_or((row, ""));
    let one = source_of(page, one);
    let other = source_of(page, other);
    let one = built(page.alloc(), &one, 1);
    let other = built(page.alloc(), &other, 1);
    put_head(page, &one);
    let is_same = one == other;
    page.put(", the same file: ");
    page.put(is_same);
    page.put("\n");
}

/// Appends something about an address in a program: where the code of a line begins, the line in whose code an address
/// lies, or the first few bytes of the code from an address on.
pub fn put_place(page: &mut Page, name: &str, row: &str) {
    let (place, rest) = cut(row);
    let (count, source) = if name == "code" {
        cut(rest)
    } else {
        ("0", rest)
    };
    let source = source_of(page, source);
    let Some(program) = compiled(page, &source, 1) else {
        return;
    };
    match name {
        "start_of" => put_start(page, &program, place),
        "line_at" => put_line(page, &program, place),
        _ => {
            let count = number(page, count);
            put_code(page, &program, place, count);
        }
    }
}

fn put_start(page: &mut Page, program: &Compiled, line: &str) {
    match program.start_of(word(page, line)) {
        Some(address) => {
            page.put_word(address);
            page.put("\n");
        }
        None => page.put("none\n"),
    }
}

fn put_line(page: &mut Page, program: &Compiled, address: &str) {
    match program.line_at(hex_word(page, address)) {
        Some(line) => {
            page.put(line);
            page.put("\n");
        }
        None => page.put("none\n"),
    }
}

fn put_code(page: &mut Page, program: &Compiled, address: &str, count: u64) {
    let at = hex_word(page, address);
    let file = tb_prg::read(program.prg());
    if let Some(file) = page.held(file) {
        let before = usize::from(at.saturating_sub(file.at));
        let count = usize::try_from(count).unwrap_or(0);
        for byte in file.bytes.iter().skip(before).take(count) {
            page.put_byte(*byte);
        }
        page.put("\n");
    }
}

/// Appends the jumps to lines that aren't there.
pub fn put_warnings(page: &mut Page, source: &str) {
    let source = source_of(page, source);
    if let Some(program) = compiled(page, &source, 1) {
        let warnings = program.warnings();
        page.put_debug(&warnings);
        page.put("\n");
    }
}

/// Tries the prefixes of the largest program, up to this many lines, and appends the first that does not compile. There
/// is enough memory here, so running out of it is no answer.
pub fn put_cuts(page: &mut Page, row: &str) {
    for last in 1..=word(page, row) {
        let mut source = Vec::new(page.alloc());
        let begun = source.extend_from_slice(b"1 PRINT \"\"\n");
        page.held(begun);
        push_lines(page, &mut source, 2, last, "END");
        if let Err(error) = compile(page.alloc(), &source, Options { seed: 1 }) {
            page.put("the first ");
            page.put(last);
            page.put(" lines: ");
            page.put_debug(&error);
            page.put("\n");
            return;
        }
    }
    page.put("all compile\n");
}
