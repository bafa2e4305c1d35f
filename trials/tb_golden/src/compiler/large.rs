//! Programs that only `compile_to_fit` compiles: their sizes.
use crate::page::Page;
use tb_codegen::{Options, compile, compile_to_fit};
use tb_compiled::{CompileError, Compiled};

// A source, compiled whatever it costs.
fn fitted(page: &mut Page, source: &[u8]) -> Option<Compiled> {
    let compiled = compile_to_fit(page.alloc(), source, Options { seed: 1 });
    page.held(compiled)
}

/// Appends the cost for which a source is refused, and the bytes of its code and line table from `$0C00` on.
pub fn put_size(page: &mut Page, source: &[u8]) {
    match compile(page.alloc(), source, Options { seed: 1 }) {
        Err(CompileError::TooLarge(cost)) => {
            page.put("costs ");
            page.put(cost);
        }
        _ => page.fail(),
    }
    if let Some(program) = fitted(page, source) {
        // The load address, and the bytes from $0801 on that come before.
        let size = program.prg().len().saturating_sub(2 + 0x0c00 - 0x0801);
        page.put(" and takes ");
        page.put(size);
        page.put(" bytes\n");
    }
}
