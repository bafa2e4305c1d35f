//! The stepper: what it answers to calls and to commands, and steps taken back.
use crate::compiler::machines::{Start, are_same};
use crate::compiler::sources::{compiled, source_of};
use crate::notation::{cut, decoded, number, word};
use crate::page::Page;
use tb_compiled::Compiled;
use tb_driver::{Tracked, step_text};
use tb_kernal::{Machine, Outside, Quiet, Rude, Status};
use tb_parser::parse_expr;
use tb_stepper::Stepper;
use tb_test_support::no_keys;
use tb_words::Letter;

/// Appends the status and the answers of `step_text`: `LIMIT SOURCE |COMMANDS`.
pub fn put_commands(page: &mut Page, row: &str) {
    let (limit, rest) = cut(row);
    let limit = number(page, limit);
    let (source, commands) = rest.split_once(" |").unwrap_or((rest, ""));
    let source = source_of(page, source);
    let commands = decoded(page, commands);
    put_steps(page, &source, &commands, limit);
}

fn put_steps(page: &mut Page, source: &[u8], commands: &[u8], limit: u64) {
    let alloc = page.alloc();
    let mut screen = Tracked::new(Vec::new(alloc));
    let report = step_text(
        alloc,
        &mut Tracked::new(source),
        &mut Tracked::new(commands),
        &mut screen,
        1,
        no_keys(alloc),
        limit,
    );
    page.put("status ");
    page.put(report.status());
    page.put("\n");
    page.put_ascii(&screen.stream);
}

// What follows a word at the beginning of a row; nothing if no row has it. A block begins with a comment.
fn field<'a>(block: &'a str, word: &str) -> &'a str {
    let (_, rest) = block.split_once(word).unwrap_or(("", ""));
    let (row, _) = rest.split_once('\n').unwrap_or((rest, ""));
    row
}

/// Appends blocks: what a machine starts with, and then calls of its stepper, each with its answer.
pub fn put_blocks(page: &mut Page, blocks: &str) {
    for block in blocks.split("\n\n") {
        put_block(page, block);
        page.put("\n");
    }
}

fn put_block(page: &mut Page, block: &str) {
    let (seed, source) = cut(field(block, "\nsource "));
    let seed = word(page, seed);
    let source = source_of(page, source);
    if let Some(program) = compiled(page, &source, seed) {
        put_program(page, &program, block);
    }
}

// Appends a block about this program.
fn put_program(page: &mut Page, program: &Compiled, block: &str) {
    let text = decoded(page, field(block, "\ntext "));
    let answers = decoded(page, field(block, "\nanswers "));
    let start = Start {
        program,
        loads: field(block, "\nloads "),
        text: &text,
        answers: &answers,
    };
    put_started(page, start, block);
}

// Appends a block about a machine with this start.
fn put_started(page: &mut Page, start: Start<'_>, block: &str) {
    if let Some(mut stepper) = start.stepper(page, Quiet) {
        for row in block.lines() {
            page.put(row);
            put_row(page, start, &mut stepper, row);
            page.put("\n");
        }
    }
}

// Appends what this stepper, or another one with this start, answers to a row of a block.
fn put_row(page: &mut Page, start: Start<'_>, stepper: &mut Stepper<'_, Quiet>, row: &str) {
    let (name, rest) = cut(row);
    match name {
        "#" | "source" | "text" | "answers" | "loads" => {}
        "kept" => put_kept(page, start, rest),
        "back_over_rude" => put_back(page, start, rest),
        "back_over_rude_up_to" => put_each_back(page, start, rest),
        _ => {
            page.put(" => ");
            put_call(page, stepper, name, rest);
        }
    }
}

// Appends what a call of a stepper answers.
fn put_call(page: &mut Page, stepper: &mut Stepper<'_, Quiet>, name: &str, rest: &str) {
    match name {
        "step" => {
            let stepped = stepper.step();
            page.put_debug(&stepped);
        }
        "back" => {
            let taken = stepper.back();
            page.put_debug(&taken);
        }
        "to_line" => put_reached(page, stepper, rest),
        _ => put_seen(page, stepper, name, rest),
    }
}

fn put_reached(page: &mut Page, stepper: &mut Stepper<'_, Quiet>, rest: &str) {
    let (line, limit) = cut(rest);
    let reached = stepper.to_line(word(page, line), number(page, limit));
    page.put_debug(&reached);
}

// Appends what can be seen of a stepper's machine.
fn put_seen(page: &mut Page, stepper: &Stepper<'_, Quiet>, name: &str, rest: &str) {
    match name {
        "regs" => page.put_debug(&stepper.machine().regs()),
        "status" => page.put_debug(&stepper.machine().status()),
        "line" => page.put_debug(&stepper.line()),
        "depth" => page.put(stepper.depth()),
        "variable" => put_variable(page, stepper, rest.as_bytes()),
        "value_of" => put_value(page, stepper, rest),
        _ => page.fail(),
    }
}

fn put_variable(page: &mut Page, stepper: &Stepper<'_, Quiet>, name: &[u8]) {
    match Letter::read(*name.first().unwrap_or(&0)) {
        Some(letter) => page.put(stepper.variable(letter)),
        None => page.fail(),
    }
}

fn put_value(page: &mut Page, stepper: &Stepper<'_, Quiet>, text: &str) {
    let expression = parse_expr(page.alloc(), text.as_bytes());
    if let Some(expression) = page.held(expression) {
        let value = stepper.value_of(&expression);
        page.put_debug(&value);
    }
}

// Takes this many steps, or fewer if the program returns. Answers how many are noted.
fn take_steps<O: Outside + Drop>(stepper: &mut Stepper<'_, O>, count: u64) -> u64 {
    for taken in 0..count {
        if stepper.machine().status() == Status::Returned || stepper.step().is_err() {
            return taken;
        }
    }
    count
}

// Takes back all steps that are noted, and answers how many they were.
fn take_back<O: Outside + Drop>(stepper: &mut Stepper<'_, O>) -> u64 {
    for taken in 0..u64::MAX {
        if stepper.back().is_err() {
            return taken;
        }
    }
    u64::MAX
}

// Whether this many steps with a rude ROM are taken back: exactly as many calls of `back` as noted steps lead back to
// the start.
fn is_taken_back(page: &mut Page, start: Start<'_>, first: &Machine, count: u64) -> bool {
    match start.stepper(page, Rude::new(7)) {
        Some(mut stepper) => {
            let noted = take_steps(&mut stepper, count);
            take_back(&mut stepper) == noted && are_same(stepper.machine(), first)
        }
        None => false,
    }
}

fn put_back(page: &mut Page, start: Start<'_>, count: &str) {
    let count = number(page, count);
    if let Some(first) = start.machine(page) {
        let is_back = is_taken_back(page, start, &first, count);
        page.put(" => ");
        page.put(is_back);
    }
}

// Appends the first number of steps, up to this one, that is not taken back.
fn put_each_back(page: &mut Page, start: Start<'_>, most: &str) {
    let most = number(page, most);
    if let Some(first) = start.machine(page) {
        for count in 1..=most {
            if !is_taken_back(page, start, &first, count) {
                page.put(" => not ");
                page.put(count);
                return;
            }
        }
        page.put(" => each is taken back");
    }
}

// How many of this many steps leave the machine running, whatever state it comes to.
fn count_running(stepper: &mut Stepper<'_, Quiet>, count: u64) -> u64 {
    let mut running = 0u64;
    for _ in 0..count {
        if let Ok(Status::Running) = stepper.step() {
            running = running.saturating_add(1);
        }
    }
    running
}

// How many of this many steps left the machine running, how many of them are taken back, and whether it is then in the
// state in which another machine is after the others.
fn kept(page: &mut Page, start: Start<'_>, count: u64) -> Option<(u64, u64, bool)> {
    let mut stepper = start.stepper(page, Quiet)?;
    let running = count_running(&mut stepper, count);
    let back = take_back(&mut stepper);
    let is_same = stands_as_after(page, start, stepper.machine(), count.saturating_sub(back))?;
    Some((running, back, is_same))
}

// Whether a machine is in the state in which another one is after this many steps.
fn stands_as_after(
    page: &mut Page,
    start: Start<'_>,
    machine: &Machine,
    count: u64,
) -> Option<bool> {
    let mut other = start.stepper(page, Quiet)?;
    take_steps(&mut other, count);
    Some(are_same(machine, other.machine()))
}

fn put_kept(page: &mut Page, start: Start<'_>, count: &str) {
    let count = number(page, count);
    if let Some((running, back, is_same)) = kept(page, start, count) {
        page.put(" => ");
        page.put(running);
        page.put(" running, ");
        page.put(back);
        page.put(" taken back, as after the first: ");
        page.put(is_same);
    }
}
