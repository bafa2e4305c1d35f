//! The source text of the routine block.
ghost use Rattle.std.specs.Prelude.{◌≡◌, true};
ghost use Rattle.tb_runtime16.specs.Block.{block_bytes};

use crate::page::Page;
use crate::text::assembly::{assembled, items_in, put_address};
use tb_runtime16::{BLOCK_AT, Routine, SEND_AT, block, entry};

// Where each part of the block begins, by its label.
fn parts() -> [(&'static str, u16); 15] {
    [
        ("PROLOGUE", BLOCK_AT),
        ("SEND", SEND_AT),
        ("DIVIDE", entry(Routine::Divide)),
        ("RANDOM", entry(Routine::Random)),
        ("MULTIPLY", entry(Routine::Multiply)),
        ("NUMBER", entry(Routine::Number)),
        ("TEXT", entry(Routine::Text)),
        ("ZONE", entry(Routine::Zone)),
        ("INPUT", entry(Routine::Input)),
        ("SEARCH", entry(Routine::Search)),
        ("PUSH", entry(Routine::Push)),
        ("POP", entry(Routine::Pop)),
        ("FAULTLINE", entry(Routine::FaultLine)),
        ("FAULT", entry(Routine::Fault)),
        ("POLL", entry(Routine::Poll)),
    ]
}

fn is_block(bytes: &[u8]) -> bool
    ensures { result ≡ true → bytes.now ≡ block_bytes }
{
    bytes == block()
}

/// Appends whether a text assembles to the block's bytes, and for each part the address of its label and where it
/// begins.
pub fn put_block(page: &mut Page, text: &str) {
    let Some(items) = items_in(page, text.as_bytes()) else {
        return;
    };
    if let Some(image) = assembled(page, BLOCK_AT, &items) {
        page.put("the block's bytes: ");
        page.put(is_block(&image.bytes));
        for (label, address) in parts() {
            page.put("\n");
            page.put(label);
            page.put(" ");
            put_address(page, &image, label);
            page.put(" ");
            page.put_word(address);
        }
        page.put("\n");
    }
}
