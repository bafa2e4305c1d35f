//! Rows of the grammar, the parser, the slot code, its groups and the runs of sources.
mod readings;
mod runs;

use crate::notation::decoded;
use crate::page::Page;
use std::fmt::Debug;
use tb_basic_grammar::{expressions_are_unique, statements_are_unique};
use tb_compiler_selection::{groups_run_as_slot_code, lines_are_closed, omitted_words_are_dead};

/// That no text has two readings, and that groups do what slot code does, is proved in their own crates.
pub fn laws() {
    expressions_are_unique();
    statements_are_unique();
    omitted_words_are_dead();
    lines_are_closed();
    groups_run_as_slot_code();
}

/// Appends what is on a line, after its number.
pub fn put_line<D: Debug>(page: &mut Page, number: u16, shown: &D) {
    page.put(" ");
    page.put(number);
    page.put_part(shown);
    page.put(";");
}

/// Appends the answer of a row. Few calls are given anything but a text.
pub fn put_answer(page: &mut Page, name: &str, rest: &str) {
    let (text, beside) = rest.split_once(" | ").unwrap_or((rest, ""));
    let text = decoded(page, text);
    let beside = decoded(page, beside);
    match name {
        "expression" => readings::put_expression(page, &text),
        "statement" => readings::put_statement(page, &text),
        "parse" => readings::put_parsed(page, &text),
        "parse_expression" => readings::put_parsed_expression(page, &text),
        "tokens" => readings::put_tokens(page, &text),
        "kinds" => readings::put_kinds(page, &text),
        "jump" => runs::put_jump(page, &text),
        "value" => runs::put_value(page, &text),
        _ => runs::put_program(page, name, &text, &beside),
    }
}
