//! Sources that are refused: the compiler says why and where, and the engines write nothing and say it in one line.
use crate::compiler::sources::source_of;
use crate::page::Page;
use tb_codegen::{Options, compile};
use tb_driver::{Report, Tracked, build, run_text};
use tb_kernal::Quiet;
use tb_test_support::no_keys;

// Appends what the compiler answers.
fn put_compiled(page: &mut Page, source: &[u8]) {
    match compile(page.alloc(), source, Options { seed: 1 }) {
        Ok(_) => page.put("compiles\n"),
        Err(error) => {
            page.put_debug(&error);
            page.put("\n");
        }
    }
}

// Appends how an engine ended, how many bytes it wrote, and what it says.
fn put_report(page: &mut Page, name: &str, report: &Report, written: usize) {
    let outcome = report.outcome;
    let status = report.status();
    page.put("  ");
    page.put(name);
    page.put(": ");
    page.put_debug(&outcome);
    page.put(", status ");
    page.put(status);
    page.put(", ");
    page.put(written);
    page.put(" bytes, ");
    page.put(report);
}

/// Appends what the compiler answers.
pub fn put_compile(page: &mut Page, row: &str) {
    let source = source_of(page, row);
    put_compiled(page, &source);
}

// Appends how `build` ends.
fn put_built(page: &mut Page, source: &[u8]) {
    let mut file = Tracked::new(Vec::new(page.alloc()));
    let built = build(page.alloc(), &mut Tracked::new(source), &mut file, 1);
    put_report(page, "build", &built, file.stream.len());
}

// Appends how `run_text` ends.
fn put_ran(page: &mut Page, source: &[u8]) {
    let alloc = page.alloc();
    let mut screen = Tracked::new(Vec::new(alloc));
    let mut source = Tracked::new(source);
    let keyboard = no_keys(alloc);
    let ran = run_text(
        alloc,
        &mut source,
        &mut screen,
        1,
        keyboard,
        1000,
        &mut Quiet,
    );
    put_report(page, "run", &ran, screen.stream.len());
}

/// Appends what the compiler and the two engines answer.
pub fn put_refused(page: &mut Page, row: &str) {
    let source = source_of(page, row);
    put_compiled(page, &source);
    put_built(page, &source);
    put_ran(page, &source);
}
