//! What programs do when they run as sources, their slot code, and the values of expressions.
use crate::page::Page;
use crate::source::put_line;
use tb_lower::{SlotCode, lower};
use tb_basic_meaning::{SourceRun, eval, run_source, warnings};
use tb_parser::{Program, parse, parse_expr};
use tb_compiler_selection::select;

/// The seed of RND.
const SEED: u16 = 1;

/// A limit of lines that is higher than any program here takes if it ends.
const LIMIT: u64 = 2000;

/// What a call answers that is given a program.
pub fn put_program(page: &mut Page, name: &str, source: &[u8], beside: &[u8]) {
    let program = parse(page.alloc(), source);
    let Some(program) = page.held(program) else {
        return;
    };
    match name {
        "run" => put_run(page, &program, beside, &[]),
        "poll" => put_run(page, &program, &[], beside),
        "ten_lines" => put_ten_lines(page, &program),
        "lower" | "groups" => put_lowered(page, name, &program),
        "missing" => put_missing(page, &program),
        _ => page.fail(),
    }
}

// How a run ended and what it sent.
fn put_sent(page: &mut Page, run: &SourceRun) {
    let sent = run.sent.escape_ascii();
    page.put_part(&run.end);
    page.put(" \"");
    page.put(sent);
    page.put("\"");
}

// How a run ends and what it sends.
fn put_run(page: &mut Page, program: &Program, keys: &[u8], answers: &[u8]) {
    let run = run_source(page.alloc(), program, SEED, keys, answers, LIMIT);
    if let Some(run) = page.held(run) {
        put_sent(page, &run);
    }
}

// What ten lines of a run send, the line where it goes on, and its variables.
fn put_ten_lines(page: &mut Page, program: &Program) {
    let run = run_source(page.alloc(), program, SEED, &[], &[], 10);
    if let Some(run) = page.held(run) {
        put_sent(page, &run);
        page.put_part(&run.place);
        page.put_part(&run.variables);
    }
}

/// The run of a long program that goes to the line that is typed in: lines 30, 40, .. 2990 each end, and 3000 prints.
pub fn put_jump(page: &mut Page, keys: &[u8]) {
    let mut source = Page::new(page.alloc());
    source.put("10 INPUT A\n20 GOTO A\n");
    for tens in 3u16..300 {
        source.put(tens);
        source.put("0 END\n");
    }
    source.put("3000 PRINT \"Z\"");
    put_program(page, "run", source.text().as_bytes(), keys);
}

/// The value of an expression if A is 5 and the other variables are 0.
pub fn put_value(page: &mut Page, text: &[u8]) {
    let expr = parse_expr(page.alloc(), text);
    if let Some(expr) = page.held(expr) {
        let mut variables = [0; 26];
        variables[0] = 5;
        let value = eval(&expr, &variables);
        page.put_part(&value);
    }
}

// A program's slot code, or its groups.
fn put_lowered(page: &mut Page, name: &str, program: &Program) {
    match lower(page.alloc(), program) {
        Ok(code) if name == "lower" => put_code(page, &code),
        Ok(code) => put_groups(page, &code),
        Err(error) => page.put_part(&error),
    }
}

// The slot code of each line.
fn put_code(page: &mut Page, code: &SlotCode) {
    for line in code.lines() {
        put_line(page, line.number, &line.code);
    }
}

// The groups of each line's slot code.
fn put_groups(page: &mut Page, code: &SlotCode) {
    for line in code.lines() {
        let groups = select(page.alloc(), &line.code);
        if let Some(groups) = page.held(groups) {
            put_line(page, line.number, &groups);
        }
    }
}

// The constant targets that a program lacks, each after its line's number.
fn put_missing(page: &mut Page, program: &Program) {
    let warnings = warnings(page.alloc(), program);
    if let Some(warnings) = page.held(warnings) {
        for warning in warnings.as_slice() {
            page.put(" ");
            page.put(warning.line);
            page.put(" to ");
            page.put(warning.target);
        }
    }
}
