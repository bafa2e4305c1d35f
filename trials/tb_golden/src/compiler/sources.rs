//! Sources as rows write them: in parts with ` & ` between them; `lines 100 299 END` is a part that has this statement
//! on each of these lines.
use crate::notation::{cut, push_decoded, word};
use crate::page::Page;
use tb_codegen::{Options, compile};
use tb_compiled::Compiled;

/// Appends the same statement under each of these numbers.
pub fn push_lines(page: &mut Page, source: &mut Vec<u8>, first: u16, last: u16, statement: &str) {
    let mut lines = Page::new(page.alloc());
    for number in first..=last {
        lines.put(number);
        lines.put(" ");
        lines.put(statement);
        lines.put("\n");
    }
    push_decoded(page, source, lines.text());
}

/// The source that is written this way.
pub fn source_of(page: &mut Page, row: &str) -> Vec<u8> {
    let mut source = Vec::new(page.alloc());
    for part in row.split(" & ") {
        match part.strip_prefix("lines ") {
            Some(lines) => {
                let (first, rest) = cut(lines);
                let (last, statement) = cut(rest);
                let (first, last) = (word(page, first), word(page, last));
                push_lines(page, &mut source, first, last, statement);
            }
            None => push_decoded(page, &mut source, part),
        }
    }
    source
}

/// A source, compiled with this seed of RND.
pub fn compiled(page: &mut Page, source: &[u8], seed: u16) -> Option<Compiled> {
    let compiled = compile(page.alloc(), source, Options { seed });
    page.held(compiled)
}
