//! How answers are written. Each part begins with a space.
use crate::page::Page;
use tb_cpu::{Flags, Regs, Wrong};
use tb_kernal::Status;
use tb_memmap::Closed;

/// Bytes as text in quotes.
pub fn put_quoted(page: &mut Page, bytes: &[u8]) {
    let shown = bytes.escape_ascii();
    page.put(" \"");
    page.put(shown);
    page.put("\"");
}

/// A byte that was read or written.
pub fn put_read(page: &mut Page, read: Result<u8, Closed>) {
    match read {
        Ok(byte) => {
            page.put(" ");
            page.put_low_byte(byte);
        }
        Err(Closed(address)) => put_closed(page, address),
    }
}

fn put_closed(page: &mut Page, address: u16) {
    page.put(" Closed ");
    page.put_low_word(address);
}

/// Why an instruction was refused.
pub fn put_wrong(page: &mut Page, wrong: Wrong) {
    match wrong {
        Wrong::Closed(address) => put_closed(page, address),
        other => page.put_part(&other),
    }
}

/// The status of a machine.
pub fn put_status(page: &mut Page, status: Status) {
    match status {
        Status::Wrong(wrong) => put_wrong(page, wrong),
        other => page.put_part(&other),
    }
}

/// All registers, the flags last.
pub fn put_registers(page: &mut Page, regs: &Regs) {
    put_indexes(page, regs.a, regs.x, regs.y);
    let Regs { s, pc, .. } = *regs;
    page.put(" S=");
    page.put_low_byte(s);
    page.put(" PC=");
    page.put_low_word(pc);
    put_flags(page, regs.flags);
}

/// A, X and Y.
pub fn put_indexes(page: &mut Page, a: u8, x: u8, y: u8) {
    page.put(" A=");
    page.put_low_byte(a);
    page.put(" X=");
    page.put_low_byte(x);
    page.put(" Y=");
    page.put_low_byte(y);
}

/// Flags, with a dot in place of a clear one.
pub fn put_flags(page: &mut Page, flags: Flags) {
    page.put(" P=");
    let marks = [
        (flags.n, "N"),
        (flags.v, "V"),
        (flags.d, "D"),
        (flags.i, "I"),
        (flags.z, "Z"),
        (flags.c, "C"),
    ];
    for (is_set, letter) in marks {
        page.put(if is_set { letter } else { "." });
    }
}
