//! Sources that are cut off anywhere: what the check says of them is what the compiler does.
use crate::check::checks::File;
use crate::page::Page;
use std::alloc::{AllocError, Global};
use tb_engine_findings::{CheckSettings, Findings, SourceErrorKind, examine};
use tb_codegen::{TinyBasic, compile_within};
use tb_compiled::{CompileError, CompileSettings, Notation, SizeLimit};
use tb_basic_meaning::LowerError;

/// The seed of RND, on which nothing depends here.
const SEED: u16 = 1;

// Whether the check and the compiler agree on a source, by either limit.
fn agrees(alloc: Global, source: &[u8]) -> Result<bool, AllocError> {
    Ok(
        agrees_within(alloc, source, SizeLimit::Cost)?
            && agrees_within(alloc, source, SizeLimit::Memory)?,
    )
}

fn agrees_within(alloc: Global, source: &[u8], size: SizeLimit) -> Result<bool, AllocError> {
    let notation = Notation::Plain;
    let asked = CheckSettings { size, notation };
    let found = examine(&TinyBasic, alloc, source, asked)?.findings;
    let settings = CompileSettings {
        seed: SEED,
        size,
        notation,
    };
    Ok(match compile_within(alloc, source, settings) {
        Ok(_) => matches!(&found, Findings::Accepted(_)),
        Err(error) => is_refusal(&found, error),
    })
}

// Whether the compiler's refusal is the first one that was found. Of lines that are too deep, any may come first.
fn is_refusal(found: &Findings, error: CompileError) -> bool {
    match (found, error) {
        (Findings::BadLines(lines), CompileError::Source(error)) => match lines.as_slice() {
            [first, ..] => first.error == error,
            [] => false,
        },
        (Findings::Empty, CompileError::Source(error)) => error.kind == SourceErrorKind::Empty,
        (Findings::Refused { deep, .. }, CompileError::Lower(LowerError::TooDeep(_))) => {
            !deep.is_empty()
        }
        (Findings::Refused { deep, too_large }, CompileError::TooLarge(cost)) => {
            deep.is_empty() && *too_large == Some(cost)
        }
        _ => false,
    }
}

/// Appends for how many prefixes of the sources the check and the compiler agree, or the first for which they don't.
pub fn put_cuts(page: &mut Page, files: &[File]) {
    for file in files {
        if let Some(bytes) = &file.bytes {
            put_cuts_of(page, bytes);
        }
    }
}

fn put_cuts_of(page: &mut Page, source: &[u8]) {
    for length in 0..=source.len() {
        let agree = agrees(page.alloc(), &source[..length]);
        if page.held(agree) != Some(true) {
            page.put("=> not on the first ");
            page.put(length);
            page.put(" bytes\n");
            return;
        }
    }
    page.put("=> on all beginnings of ");
    page.put(source.len());
    page.put(" bytes\n");
}
