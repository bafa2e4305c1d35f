//! Rows of one instruction.
use crate::machine::Bench;
use crate::machine::setting::first_regs;
use crate::machine::writing::{put_registers, put_wrong};
use crate::notation::hex_byte;
use crate::page::Page;
use tb_cpu::{Flags, operand_address, step};

/// Appends the answer of a row.
pub fn put_answer(page: &mut Page, bench: &mut Bench, name: &str, rest: &str) {
    match name {
        "one" => put_first(page, bench, rest),
        "then" => put_next(page, bench, rest),
        "operand" => put_operand(page, bench, rest),
        _ => put_status_byte(page, rest),
    }
}

// The flags of a status byte, and their byte.
fn put_status_byte(page: &mut Page, status: &str) {
    let flags = Flags::from_byte(hex_byte(page, status));
    let byte = flags.to_byte();
    page.put(" ");
    page.put_low_byte(byte);
    page.put_part(&flags);
}

// The first instruction of a program.
fn put_first(page: &mut Page, bench: &mut Bench, rest: &str) {
    bench.restart(page);
    put_next(page, bench, rest);
}

// The instruction at PC.
fn put_next(page: &mut Page, bench: &mut Bench, rest: &str) {
    bench.setting.read(page, bench.regs, rest);
    bench.regs = bench.setting.regs;
    bench.setting.put(page, &mut bench.memory);
    match step(&mut bench.regs, &mut bench.memory) {
        Ok(()) => page.put(" Ok"),
        Err(wrong) => put_wrong(page, wrong),
    }
    put_registers(page, &bench.regs);
    bench.setting.put_asked(page, &bench.memory);
}

// The operand's address of an instruction that the next row runs.
fn put_operand(page: &mut Page, bench: &mut Bench, rest: &str) {
    bench.restart(page);
    bench.setting.read(page, first_regs(), rest);
    bench.setting.put(page, &mut bench.memory);
    let place = operand_address(&bench.regs, &bench.memory);
    page.put(" ");
    page.put_low_word(place);
}
