//! What the grammar and the parser answer.
use crate::page::Page;
use crate::source::put_line;
use tb_basic_grammar::{read_expression, read_statement};
use tb_parser::{SourceError, parse, parse_expr, tokens};

// How many bytes are left at the first literal above 65,535.
fn put_large(page: &mut Page, large: Option<usize>) {
    if let Some(left) = large {
        page.put(", too large with ");
        page.put(left);
        page.put(" left");
    }
}

/// An expression over squeezed text.
pub fn put_expression(page: &mut Page, text: &[u8]) {
    match read_expression(page.alloc(), text) {
        Ok(read) => {
            page.put_part(&read.expr);
            put_large(page, read.large);
        }
        Err(stop) => page.put_part(&stop),
    }
}

/// A statement over squeezed text.
pub fn put_statement(page: &mut Page, text: &[u8]) {
    match read_statement(page.alloc(), text) {
        Ok(read) => {
            page.put_part(&read.statement);
            put_large(page, read.large);
        }
        Err(stop) => page.put_part(&stop),
    }
}

// What is wrong, and the line and the column.
fn put_refusal(page: &mut Page, error: SourceError) {
    let SourceError { kind, line, column } = error;
    page.put_part(&kind);
    page.put(" ");
    page.put(line);
    page.put(":");
    page.put(column);
}

/// The lines of a source's map, each with its number.
pub fn put_parsed(page: &mut Page, source: &[u8]) {
    match parse(page.alloc(), source) {
        Ok(program) => {
            for (number, statement) in program.lines() {
                put_line(page, *number, statement);
            }
        }
        Err(error) => put_refusal(page, error),
    }
}

/// An expression as a user writes it.
pub fn put_parsed_expression(page: &mut Page, text: &[u8]) {
    match parse_expr(page.alloc(), text) {
        Ok(expr) => page.put_part(&expr),
        Err(error) => put_refusal(page, error),
    }
}

/// The texts of a line's tokens.
pub fn put_tokens(page: &mut Page, line: &[u8]) {
    let tokens = tokens(page.alloc(), line);
    if let Some(tokens) = page.held(tokens) {
        for token in tokens.as_slice() {
            let text = token.text.escape_ascii();
            page.put(" \"");
            page.put(text);
            page.put("\"");
        }
    }
}

/// What the tokens of a line are.
pub fn put_kinds(page: &mut Page, line: &[u8]) {
    let tokens = tokens(page.alloc(), line);
    if let Some(tokens) = page.held(tokens) {
        for token in tokens.as_slice() {
            let kind = token.kind;
            page.put_part(&kind);
        }
    }
}
