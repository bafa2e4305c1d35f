//! Rows of `tbc format`: a source, with or without signs, and its tidy text, which is its own tidy text.
use crate::notation::decoded;
use crate::page::Page;
use std::str;
use tb_basic_format::tidy_text;
use tb_basic_text::Notation;

/// Appends the answer of a row.
pub fn put_answer(page: &mut Page, name: &str, given: &str) {
    let source = decoded(page, given);
    match name {
        "format" => put_tidy(page, source.as_slice(), Notation::Plain),
        "signs" => put_tidy(page, source.as_slice(), Notation::Signs),
        _ => page.fail(),
    }
}

fn put_tidy(page: &mut Page, source: &[u8], notation: Notation) {
    let text = tidy_text(page.alloc(), notation, source);
    if let Some(text) = page.held(text) {
        let shown = str::from_utf8(&text);
        if let Some(shown) = page.held(shown) {
            page.put_debug(&shown);
        }
        look_again(page, text.as_slice(), notation);
    }
}

// Notes if a tidy text is not its own tidy text.
fn look_again(page: &mut Page, text: &[u8], notation: Notation) {
    let again = tidy_text(page.alloc(), notation, text);
    if let Some(again) = page.held(again) {
        if again.as_slice() != text {
            page.fail();
        }
    }
}
