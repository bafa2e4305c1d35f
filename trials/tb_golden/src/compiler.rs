//! Rows of the compiler, its engines and the stepper.
mod large;
mod machines;
mod programs;
mod refusals;
mod sources;
pub mod steps;

use crate::page::Page;
use std::fs;
use std::rt::Files;

/// Appends the answer of a row.
pub fn put_answer<R: Files + AllocGlobal>(rt: &R, page: &mut Page, name: &str, rest: &str) {
    match name {
        "build" => programs::put_build(page, rest),
        "alike" => programs::put_alike(page, rest),
        "start_of" | "line_at" | "code" => programs::put_place(page, name, rest),
        "warnings" => programs::put_warnings(page, rest),
        "compile_gives_up_for_memory" => programs::put_cuts(page, rest),
        "size" => put_size(rt, page, rest),
        "compile" => refusals::put_compile(page, rest),
        "refused" => refusals::put_refused(page, rest),
        "commands" => steps::put_commands(page, rest),
        _ => page.fail(),
    }
}

// Appends the size of a program in a file.
fn put_size<R: Files + AllocGlobal>(rt: &R, page: &mut Page, file: &str) {
    let mut path = Page::new(page.alloc());
    path.put("examples/");
    path.put(file);
    path.put(".bas");
    let source = fs::read_to_string(rt, path.text());
    if let Some(source) = page.held(source) {
        large::put_size(page, source.as_bytes());
    }
}
