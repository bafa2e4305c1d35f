//! Key lists, addresses, and the text in which sent bytes are shown.
use crate::notation::{bytes_of, decoded};
use crate::page::Page;
use crate::text::writing::{put_bytes, put_text};
use std::str;
use tb_engine_streams::{KeyError, address, host_form, key_list};

/// Appends the answer of a row.
pub fn put_answer(page: &mut Page, name: &str, rest: &str) {
    match name {
        "keys" => put_keys(page, rest),
        "address" => put_address(page, rest),
        "key-errors" => {
            page.put(KeyError::BadKeys);
            page.put(", ");
            page.put(KeyError::NoMemory);
        }
        "sent" => put_sent(page, rest),
        _ => page.fail(),
    }
}

fn put_keys(page: &mut Page, escaped: &str) {
    let text = decoded(page, escaped);
    match str::from_utf8(&text) {
        Ok(text) => put_key_list(page, text),
        Err(_) => page.fail(),
    }
}

fn put_key_list(page: &mut Page, text: &str) {
    match key_list(page.alloc(), text) {
        Ok(keys) => put_bytes(page, &keys),
        Err(error) => page.put_refusal("Keys", &error),
    }
}

fn put_address(page: &mut Page, text: &str) {
    match address(text) {
        Some(address) => {
            page.put_word(address);
        }
        None => page.put("none"),
    }
}

fn put_sent(page: &mut Page, groups: &str) {
    let sent = bytes_of(page, groups);
    let shown = host_form(page.alloc(), &sent);
    if let Some(shown) = page.held(shown) {
        put_text(page, &shown);
    }
}
