//! Engines over inputs that are cut off anywhere, over readers and writers that fail anywhere, and over writers that hold
//! bytes back.
use crate::page::Page;
use crate::text::engines::{Engine, call, ending_of, put_ending, put_status};
use std::alloc::Global;
use tb_engines::{End, Outcome};
use tb_engine_streams::Tracked;
use tb_test_support::{FailingReader, FailingWriter, HoldingWriter};

/// Appends a line for each length of input at which the answer changes.
pub fn put_prefixes(page: &mut Page, engine: Engine, input: &[u8]) {
    page.put("by length");
    let mut last = Page::new(page.alloc());
    for length in 0..=input.len() {
        let ending = ending_of(page.alloc(), engine, &input[..length]);
        let mut shown = Page::new(page.alloc());
        put_ending(&mut shown, engine, &ending);
        if shown.text() != last.text() {
            page.put("\n  from ");
            page.put(length);
            page.put(" on ");
            page.put(shown.text());
        }
        last = shown;
    }
}

// Whether an engine ends in a read fault, and writes nothing, if its reader fails after `until_fault` bytes.
fn reader_fails(
    alloc: Global,
    engine: Engine,
    input: &[u8],
    until_fault: usize,
    most: usize,
) -> bool {
    let mut reader = Tracked::new(FailingReader::new(input, until_fault, most));
    let mut writer = Tracked::new(Vec::new(alloc));
    let outcome = call(alloc, engine, &mut reader, &mut writer);
    outcome == Outcome::ReadFault && reader.failures() == 1 && writer.stream.is_empty()
}

/// Appends how many failing readers led to a read fault, or the first that did not.
pub fn put_failing_readers(page: &mut Page, engine: Engine, input: &[u8]) {
    let mut met = 0u64;
    for until_fault in 0..=input.len() {
        for most in [1, 7, 4096] {
            if !reader_fails(page.alloc(), engine, input, until_fault, most) {
                page.put("no fault after ");
                page.put_fault(until_fault, most);
                return;
            }
            met = met.saturating_add(1);
        }
    }
    page.put(met);
    page.put(" faults, and nothing written");
}

// Whether an engine writes what its writer takes of the whole text, and ends in a write fault if that is not all.
fn writer_fails(
    alloc: Global,
    engine: Engine,
    input: &[u8],
    whole: &[u8],
    until_fault: usize,
    most: usize,
) -> bool {
    let mut writer = Tracked::new(FailingWriter::new(alloc, until_fault, most));
    let outcome = call(alloc, engine, &mut Tracked::new(input), &mut writer);
    let wanted = if until_fault < whole.len() {
        Outcome::WriteFault
    } else {
        Outcome::Ended(End::Done)
    };
    outcome == wanted && Some(writer.stream.taken.as_slice()) == whole.get(..until_fault)
}

/// Appends the answer with a writer that does not fail, and how many failing writers took a prefix of it, or the first
/// that did not.
pub fn put_failing_writers(page: &mut Page, engine: Engine, input: &[u8]) {
    let whole = ending_of(page.alloc(), engine, input);
    put_ending(page, engine, &whole);
    let mut met = 0u64;
    for until_fault in 0..=whole.wrote.len() {
        for most in [1, 2, 4096] {
            if !writer_fails(page.alloc(), engine, input, &whole.wrote, until_fault, most) {
                page.put(", and no prefix after ");
                page.put_fault(until_fault, most);
                return;
            }
            met = met.saturating_add(1);
        }
    }
    page.put(", and a prefix of it ");
    page.put(met);
    page.put(" times");
}

/// Appends what comes of a writer that hands bytes on when it is flushed, and of one whose flush fails.
pub fn put_flushed(page: &mut Page, engine: Engine, input: &[u8]) {
    put_held(page, engine, input, false);
    page.put(", else ");
    put_held(page, engine, input, true);
}

// How a call ends with such a writer, and how many of the bytes written were handed on.
fn put_held(page: &mut Page, engine: Engine, input: &[u8], fails: bool) {
    let mut writer = Tracked::new(HoldingWriter::new(page.alloc(), fails));
    let outcome = call(page.alloc(), engine, &mut Tracked::new(input), &mut writer);
    put_status(page, outcome);
    let (handed_on, taken) = (writer.stream.handed_on, writer.stream.taken.len());
    page.put(", ");
    page.put(handed_on);
    page.put(" of ");
    page.put(taken);
    page.put(" handed on");
}
