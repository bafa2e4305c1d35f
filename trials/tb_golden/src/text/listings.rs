//! The disassembler, and PRG files.
use crate::notation::{bytes_of, cut, decoded, hex_word};
use crate::page::Page;
use crate::text::assembly::{assembled, items_in, put_refusal};
use crate::text::writing::{put_bytes, put_text};
use tb_asm::assemble;
use tb_disasm::disassemble;
use tb_memmap::CODE_START;
use tb_prg::PrgError;

/// Appends the answer of a row.
pub fn put_answer(page: &mut Page, name: &str, rest: &str) {
    match name {
        "disassemble" => put_listing_of(page, rest),
        "read" => put_loaded(page, rest),
        "prg-errors" => {
            page.put(PrgError::TooShort);
            page.put(", ");
            page.put(PrgError::RunsPast);
        }
        "write" => put_file(page, rest),
        _ => page.fail(),
    }
}

// The listing of a row's bytes, and whether it assembles to them.
fn put_listing_of(page: &mut Page, row: &str) {
    let (at, groups) = cut(row);
    let at = hex_word(page, at);
    let bytes = bytes_of(page, groups);
    match disassemble(page.alloc(), at, &bytes) {
        Ok(listing) => {
            let text = listing.text(page.alloc());
            if let Some(text) = page.held(text) {
                put_listing(page, at, &bytes, &text);
            }
        }
        Err(error) => page.put_refusal("List", &error),
    }
}

fn put_listing(page: &mut Page, at: u16, bytes: &[u8], text: &[u8]) {
    put_text(page, text);
    let Some(items) = items_in(page, text) else {
        return;
    };
    if let Some(image) = assembled(page, at, &items) {
        if image.bytes.as_slice() == bytes {
            page.put(" and back");
        }
    }
}

fn put_loaded(page: &mut Page, groups: &str) {
    let file = bytes_of(page, groups);
    match tb_prg::read(&file) {
        Ok(loaded) => {
            page.put_word(loaded.at);
            page.put(": ");
            put_bytes(page, loaded.bytes);
        }
        Err(error) => page.put_refusal("Prg", &error),
    }
}

fn put_file(page: &mut Page, escaped: &str) {
    let text = decoded(page, escaped);
    let Some(items) = items_in(page, &text) else {
        return;
    };
    match assemble(page.alloc(), CODE_START, &items) {
        Ok(image) => {
            let file = tb_prg::write(page.alloc(), &image);
            if let Some(file) = page.held(file) {
                put_bytes(page, &file);
            }
        }
        Err(error) => put_refusal(page, error),
    }
}
