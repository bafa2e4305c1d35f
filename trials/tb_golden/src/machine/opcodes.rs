//! Rows of the opcode table.
use crate::notation::{cut, hex_byte};
use crate::page::Page;
use tb_opcodes::{Mnemonic, Mode, decode, encode, length};

/// Appends the answer of a row.
pub fn put_answer(page: &mut Page, name: &str, rest: &str) {
    match name {
        "columns" => put_columns(page, rest),
        "documented" => put_documented(page),
        "encode" => put_encoded(page, rest),
        _ => put_length(page, rest),
    }
}

// The instruction of an opcode that a row names.
fn instruction(page: &mut Page, opcode: &str) -> (Mnemonic, Mode) {
    match decode(hex_byte(page, opcode)) {
        Some(found) => found,
        None => {
            page.fail();
            (Mnemonic::Nop, Mode::Implied)
        }
    }
}

fn put_encoded(page: &mut Page, rest: &str) {
    let (first, second) = cut(rest);
    let (mnemonic, _) = instruction(page, first);
    let (_, mode) = instruction(page, second);
    let opcode = encode(mnemonic, mode);
    page.put(" (");
    page.put_debug(&mnemonic);
    page.put(", ");
    page.put_debug(&mode);
    page.put(") ");
    page.put_debug(&opcode);
}

fn put_length(page: &mut Page, rest: &str) {
    let (_, mode) = instruction(page, rest);
    let length = length(mode);
    page.put_part(&mode);
    page.put_part(&length);
}

fn put_documented(page: &mut Page) {
    let mut count = 0u16;
    for opcode in 0..=255u8 {
        if decode(opcode).is_some() {
            count = count.saturating_add(1);
        }
    }
    page.put(" ");
    page.put(count);
}

// The eight opcodes that differ from one in the three bits of the column.
fn put_columns(page: &mut Page, rest: &str) {
    let first = hex_byte(page, rest);
    for column in 0..8u8 {
        put_column(page, first | column.wrapping_mul(4));
    }
}

fn put_column(page: &mut Page, opcode: u8) {
    match decode(opcode) {
        None => page.put(" | -"),
        Some((mnemonic, mode)) => {
            page.put(" | ");
            page.put_debug(&mnemonic);
            page.put_part(&mode);
            if encode(mnemonic, mode) != Some(opcode) {
                page.put(" is encoded otherwise");
            }
        }
    }
}
