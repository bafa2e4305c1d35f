//! The assembler.
use crate::notation::{cut, decoded, hex_word, number};
use crate::page::Page;
use crate::text::writing::{put_bytes, put_text};
use tb_asm::{AsmError, Image, Item, Name, Operand, assemble, read_text, settle};
use tb_opcodes::{Mnemonic, Mode};
use tb_assembly_settling::assemble_settled;

/// Appends the answer of a row.
pub fn put_answer(page: &mut Page, name: &str, rest: &str) {
    match name {
        "assemble" => put_image_of(page, rest),
        "settle" => put_settled(page, rest),
        "lay" => put_laid(page, rest),
        "one-byte-absolute" => put_one_byte(page, rest),
        "label" => put_label(page, rest),
        "name" => put_name(page, rest),
        _ => page.fail(),
    }
}

/// The items of a text; says why if there are none.
pub fn items_in(page: &mut Page, text: &[u8]) -> Option<Vec<Item>> {
    match read_text(page.alloc(), text) {
        Ok(items) => Some(items),
        Err(error) => {
            page.put_refusal("Text", &error);
            None
        }
    }
}

// The items of a row's text, in which `[9]` stands for `.byte` and nine zeros.
fn items_of(page: &mut Page, escaped: &str) -> Option<Vec<Item>> {
    let (before, rest) = escaped.split_once('[').unwrap_or((escaped, ""));
    let mut text = Page::new(page.alloc());
    text.put(before);
    if let Some((count, after)) = rest.split_once(']') {
        text.put(".byte $00");
        for _ in 1..number(page, count) {
            text.put(",$00");
        }
        text.put(after);
    }
    let text = decoded(page, text.text());
    items_in(page, &text)
}

/// Says why items were not assembled.
pub fn put_refusal(page: &mut Page, error: AsmError) {
    page.put_refusal("Item", &error);
}

/// The image of items at an address; says why if there is none.
pub fn assembled(page: &mut Page, at: u16, items: &[Item]) -> Option<Image> {
    match assemble(page.alloc(), at, items) {
        Ok(image) => Some(image),
        Err(error) => {
            put_refusal(page, error);
            None
        }
    }
}

fn put_assembled(page: &mut Page, at: u16, items: &[Item]) {
    if let Some(image) = assembled(page, at, items) {
        put_bytes(page, &image.bytes);
    }
}

// The address of a row, and the items of its text; says why if there are none.
fn row_of(page: &mut Page, row: &str) -> Option<(u16, Vec<Item>)> {
    let (at, text) = cut(row);
    let at = hex_word(page, at);
    let items = items_of(page, text)?;
    Some((at, items))
}

// The bytes of a row's text at its address.
fn put_image_of(page: &mut Page, row: &str) {
    if let Some((at, items)) = row_of(page, row) {
        put_assembled(page, at, &items);
    }
}

// The bytes of a text whose branches are settled.
fn put_settled(page: &mut Page, row: &str) {
    let Some((at, items)) = row_of(page, row) else {
        return;
    };
    match settle(page.alloc(), at, &items) {
        Ok(settled) => {
            if settled.as_slice() == items.as_slice() {
                page.put("the same items, ");
            }
            put_assembled(page, at, &settled);
        }
        Err(error) => put_refusal(page, error),
    }
}

fn put_labels(page: &mut Page, image: &Image) {
    page.put(", from ");
    page.put_word(image.at);
    page.put(":");
    for address in image.labels.values() {
        page.put(" ");
        page.put_word(*address);
    }
}

// The bytes of a text that is settled and assembled at once, and its labels' addresses.
fn put_laid(page: &mut Page, row: &str) {
    let Some((at, items)) = row_of(page, row) else {
        return;
    };
    match assemble_settled(page.alloc(), at, &items) {
        Ok(image) => {
            put_bytes(page, &image.bytes);
            put_labels(page, &image);
        }
        Err(error) => put_refusal(page, error),
    }
}

// The refusal of an instruction whose operand is a byte although its mode takes a word.
fn put_one_byte(page: &mut Page, row: &str) {
    let (at, _) = cut(row);
    let at = hex_word(page, at);
    let items = [Item::Instr(Mnemonic::Lda, Mode::Absolute, Operand::Byte(5))];
    put_assembled(page, at, &items);
}

// The address of the label with a name, and those of all labels in order.
fn put_label(page: &mut Page, row: &str) {
    let (name, rest) = cut(row);
    let Some((at, items)) = row_of(page, rest) else {
        return;
    };
    if let Some(image) = assembled(page, at, &items) {
        put_address(page, &image, name);
        put_labels(page, &image);
    }
}

/// Appends the address of a label.
pub fn put_address(page: &mut Page, image: &Image, name: &str) {
    let Some(name) = Name::read(name.as_bytes()) else {
        return page.fail();
    };
    match image.address_of(&name) {
        Some(address) => {
            page.put_word(address);
        }
        None => page.put("none"),
    }
}

fn put_name(page: &mut Page, text: &str) {
    match Name::read(text.as_bytes()) {
        Some(name) => put_text(page, name.letters.as_slice()),
        None => page.put("none"),
    }
}
