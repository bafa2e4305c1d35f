//! How bytes are printed.
use crate::page::Page;
use std::str;

/// The most bytes that are printed in full.
const MOST_SHOWN: usize = 20;

/// How many bytes are printed of each end if there are more.
const SHOWN: usize = 5;

fn put_each(page: &mut Page, bytes: &[u8]) {
    let mut between = "";
    for byte in bytes {
        page.put(between);
        page.put_byte(*byte);
        between = " ";
    }
}

/// Appends bytes in hexadecimal digits; of many, only how many they are and both ends.
pub fn put_bytes(page: &mut Page, bytes: &[u8]) {
    if bytes.is_empty() {
        return page.put("no bytes");
    }
    if bytes.len() <= MOST_SHOWN {
        return put_each(page, bytes);
    }
    page.put(bytes.len());
    page.put(" bytes: ");
    put_each(page, &bytes[..SHOWN]);
    page.put(" .. ");
    put_each(page, &bytes[bytes.len() - SHOWN..]);
}

/// Appends a text in quotes.
pub fn put_text(page: &mut Page, text: &[u8]) {
    let text = str::from_utf8(text);
    if let Some(text) = page.held(text) {
        page.put_debug(&text);
    }
}
