//! Rows of the memory map.
use crate::machine::Bench;
use crate::machine::writing::put_read;
use crate::notation::{bytes_of, cut, hex_byte, hex_word};
use crate::page::Page;
use tb_memmap::{Memory, is_open_at, region};

/// Appends the answer of a row.
pub fn put_answer(page: &mut Page, bench: &mut Bench, name: &str, rest: &str) {
    if name == "memory" {
        bench.restart(page);
        page.put(" new");
        return;
    }
    let (first, bytes) = cut(rest);
    let address = hex_word(page, first);
    match name {
        "region" => put_region(page, address),
        "read" => put_read(page, bench.memory.read(address)),
        "write" => put_written(page, &mut bench.memory, address, bytes),
        _ => put_loaded(page, &mut bench.memory, address, bytes),
    }
}

fn put_region(page: &mut Page, address: u16) {
    let region = region(address);
    let access = if is_open_at(address) {
        "open"
    } else {
        "refused"
    };
    page.put_part(&region);
    page.put(" ");
    page.put(access);
}

fn put_written(page: &mut Page, memory: &mut Memory, address: u16, byte: &str) {
    let byte = hex_byte(page, byte);
    match memory.write(address, byte) {
        Ok(()) => page.put(" Ok"),
        Err(closed) => put_read(page, Err(closed)),
    }
}

fn put_loaded(page: &mut Page, memory: &mut Memory, address: u16, groups: &str) {
    let bytes = bytes_of(page, groups);
    let loaded = memory.load(address, bytes.as_slice());
    page.put_part(&loaded);
}
