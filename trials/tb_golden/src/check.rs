//! Rows of `tbc check`. A row has sources with ` | ` between them; a source that is `!` alone can't be read.
mod checks;
mod failing;
mod prefixes;

use crate::page::Page;
use tb_compiled::SizeLimit;

/// Appends the answer of a row.
pub fn put_answer(page: &mut Page, name: &str, given: &str) {
    let files = checks::files_of(page, given);
    match name {
        "check" => checks::put_check(page, &files, SizeLimit::Cost),
        "check-fit" => checks::put_check(page, &files, SizeLimit::Memory),
        "cuts" => prefixes::put_cuts(page, &files),
        "reader-fails" => failing::put_readers(page, &files),
        "writer-fails" => failing::put_writers(page, &files),
        _ => page.fail(),
    }
}
