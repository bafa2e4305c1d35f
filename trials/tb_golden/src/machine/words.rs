//! Rows of the words.
use crate::machine::writing::put_quoted;
use crate::notation::{cut, word};
use crate::page::Page;
use tb_words::{Letter, Rel, add, digits, div_rem, hex_digits, holds, mul, neg, next_seed, sub};

/// Appends the answer of a row.
pub fn put_answer(page: &mut Page, name: &str, rest: &str) {
    match name {
        "letter" => put_letter(page, rest.as_bytes()),
        "seed" => {
            let next = next_seed(word(page, rest));
            page.put(" ");
            page.put(next);
        }
        "hexadecimal" => {
            let digits = hex_digits(word(page, rest));
            put_quoted(page, digits.as_slice());
        }
        _ => put_number(page, name, rest),
    }
}

// The index of a letter in the alphabet.
fn put_letter(page: &mut Page, bytes: &[u8]) {
    let &byte = bytes.first().unwrap_or(&0);
    match Letter::read(byte) {
        Some(letter) => {
            let index = letter.index();
            page.put(" ");
            page.put(index);
        }
        None => page.put(" None"),
    }
}

fn signed(page: &mut Page, text: &str) -> i16 {
    let read = text.parse::<i16>();
    page.held(read).unwrap_or(0)
}

fn put_number(page: &mut Page, name: &str, rest: &str) {
    let (first, second) = cut(rest);
    let a = signed(page, first);
    match name {
        "digits" => put_quoted(page, digits(a).as_slice()),
        "negate" => {
            let negative = neg(a);
            page.put(" ");
            page.put(negative);
        }
        _ => {
            let b = signed(page, second);
            put_calculated(page, name, a, b);
        }
    }
}

fn put_calculated(page: &mut Page, name: &str, a: i16, b: i16) {
    let result = match name {
        "divide" => {
            let parts = div_rem(a, b);
            page.put_part(&parts);
            return;
        }
        "add" => add(a, b),
        "subtract" => sub(a, b),
        "multiply" => mul(a, b),
        _ => return put_relations(page, a, b),
    };
    page.put(" ");
    page.put(result);
}

// The relations that hold between two words.
fn put_relations(page: &mut Page, a: i16, b: i16) {
    for rel in [Rel::Eq, Rel::Lt, Rel::Gt, Rel::Le, Rel::Ge, Rel::Ne] {
        if holds(rel, a, b) {
            page.put_part(&rel);
        }
    }
}
