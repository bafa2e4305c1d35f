//! How rows write words, numbers and bytes.
use crate::page::Page;
use tb_engine_streams::key_list;

/// A text's first word, and the rest.
pub fn cut(text: &str) -> (&str, &str) {
    text.split_once(' ').unwrap_or((text, ""))
}

/// A number; 0 if the text is not a number, which is noted.
pub fn number(page: &mut Page, text: &str) -> u64 {
    let read = text.parse::<u64>();
    page.held(read).unwrap_or(0)
}

/// A number that is a word.
pub fn word(page: &mut Page, text: &str) -> u16 {
    let read = text.parse::<u16>();
    page.held(read).unwrap_or(0)
}

/// A word in hexadecimal digits.
pub fn hex_word(page: &mut Page, text: &str) -> u16 {
    let read = u16::from_str_radix(text, 16);
    page.held(read).unwrap_or(0)
}

/// A byte in hexadecimal digits.
pub fn hex_byte(page: &mut Page, text: &str) -> u8 {
    let read = u8::from_str_radix(text, 16);
    page.held(read).unwrap_or(0)
}

/// The bytes of hexadecimal digits in groups.
pub fn bytes_of(page: &mut Page, groups: &str) -> Vec<u8> {
    let mut bytes = Vec::new(page.alloc());
    for group in groups.split_whitespace() {
        let part = key_list(page.alloc(), group);
        if let Some(part) = page.held(part) {
            extend(page, &mut bytes, &part);
        }
    }
    bytes
}

fn push(page: &mut Page, bytes: &mut Vec<u8>, byte: Option<u8>) {
    match byte {
        Some(byte) => {
            let grown = bytes.push(byte);
            page.held(grown);
        }
        None => page.fail(),
    }
}

fn byte_of(high: u8, low: u8) -> Option<u8> {
    let high = char::from(high).to_digit(16)?;
    let low = char::from(low).to_digit(16)?;
    u8::try_from((high << 4) | low).ok()
}

/// The bytes that a text stands for: `\n`, `\r`, `\t`, `\s` for a space, `\x7E`, `\240*A` for 240 times A, and `{3*AB}`
/// for ABABAB.
pub fn decoded(page: &mut Page, text: &str) -> Vec<u8> {
    let mut bytes = Vec::new(page.alloc());
    push_decoded(page, &mut bytes, text);
    bytes
}

/// Appends the bytes that a text stands for.
pub fn push_decoded(page: &mut Page, bytes: &mut Vec<u8>, text: &str) {
    for (index, piece) in text.split('{').enumerate() {
        match piece.split_once('}') {
            Some((repeated, rest)) if 0 < index => {
                push_repeated(page, bytes, repeated);
                push_plain(page, bytes, rest);
            }
            _ => push_plain(page, bytes, piece),
        }
    }
}

// What is between braces.
fn push_repeated(page: &mut Page, bytes: &mut Vec<u8>, text: &str) {
    let (count, unit) = text.split_once('*').unwrap_or(("", ""));
    for _ in 0..number(page, count) {
        push_plain(page, bytes, unit);
    }
}

// A text without repetitions in braces.
fn push_plain(page: &mut Page, bytes: &mut Vec<u8>, text: &str) {
    for (index, piece) in text.split('\\').enumerate() {
        if index == 0 {
            extend(page, bytes, piece.as_bytes());
        } else {
            push_escaped(page, bytes, piece);
        }
    }
}

fn extend(page: &mut Page, bytes: &mut Vec<u8>, more: &[u8]) {
    let grown = bytes.extend_from_slice(more);
    page.held(grown);
}

// A text that follows a backslash.
fn push_escaped(page: &mut Page, bytes: &mut Vec<u8>, piece: &str) {
    let (byte, rest) = match piece.as_bytes() {
        [b'n', rest @ ..] => (Some(b'\n'), rest),
        [b'r', rest @ ..] => (Some(b'\r'), rest),
        [b't', rest @ ..] => (Some(b'\t'), rest),
        [b's', rest @ ..] => (Some(b' '), rest),
        [b'x', high, low, rest @ ..] => (byte_of(*high, *low), rest),
        _ => return push_many(page, bytes, piece),
    };
    push(page, bytes, byte);
    extend(page, bytes, rest);
}

// `240*A` and what follows it.
fn push_many(page: &mut Page, bytes: &mut Vec<u8>, piece: &str) {
    let (count, rest) = piece.split_once('*').unwrap_or(("", ""));
    let (letter, rest) = rest.as_bytes().split_first().unwrap_or((&0, &[]));
    for _ in 0..number(page, count) {
        push(page, bytes, Some(*letter));
    }
    extend(page, bytes, rest);
}
