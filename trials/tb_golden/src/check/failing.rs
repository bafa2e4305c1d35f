//! Checks over readers and writers that fail anywhere.
use crate::check::checks::{
    Ending, Failing, File, Folder, check_folder, ending_of, folder_of, put_outcome,
};
use crate::page::Page;
use std::alloc::Global;
use tb_engine_check::CheckOutcome;
use tb_compiled::SizeLimit;
use tb_engine_streams::Tracked;
use tb_test_support::{FailingReader, FailingWriter};

/// The source that a reader fails to give.
const FIRST: &[u8] = b"10 FOR\n20 END\n";

// Whether a check whose first source comes from a reader that fails after `until_fault` bytes ends in a read fault, and
// writes what a check of the other sources writes.
fn reader_fails(
    alloc: Global,
    files: &[File],
    whole: &Ending,
    until_fault: usize,
    most: usize,
) -> bool {
    let folder = Folder {
        files,
        failing: Some(Failing {
            name: "first.bas",
            reader: FailingReader::new(FIRST, until_fault, most),
        }),
    };
    let ending = ending_of(alloc, folder, SizeLimit::Cost);
    ending.outcome == CheckOutcome::ReadFault && ending.wrote == whole.wrote
}

/// Appends what a check writes whose first source comes from a reader that fails anywhere: always the same, namely what
/// is said of the other sources.
pub fn put_readers(page: &mut Page, files: &[File]) {
    let whole = ending_of(page.alloc(), folder_of(files), SizeLimit::Cost);
    put_failing_readers(page, files, &whole);
}

fn put_failing_readers(page: &mut Page, files: &[File], whole: &Ending) {
    for until_fault in 0..=FIRST.len() {
        for most in [1, 7, 4096] {
            if !reader_fails(page.alloc(), files, whole, until_fault, most) {
                page.put("=> another answer after ");
                page.put_fault(until_fault, most);
                page.put("\n");
                return;
            }
        }
    }
    put_outcome(page, CheckOutcome::ReadFault);
}

// Whether a check writes what its writer takes, and ends in a write fault if that is not all.
fn is_prefix(
    alloc: Global,
    files: &[File],
    whole: &Ending,
    until_fault: usize,
    most: usize,
) -> bool {
    let mut writer = Tracked::new(FailingWriter::new(alloc, until_fault, most));
    let outcome = check_folder(alloc, folder_of(files), &mut writer, SizeLimit::Cost);
    let wanted = if until_fault < whole.wrote.len() {
        CheckOutcome::WriteFault
    } else {
        whole.outcome
    };
    outcome == wanted && Some(writer.stream.taken.as_slice()) == whole.wrote.get(..until_fault)
}

/// Appends how many failing writers took a prefix of what a check writes, or the first that did not.
pub fn put_writers(page: &mut Page, files: &[File]) {
    let whole = ending_of(page.alloc(), folder_of(files), SizeLimit::Cost);
    put_failing_writers(page, files, &whole);
}

fn put_failing_writers(page: &mut Page, files: &[File], whole: &Ending) {
    let length = whole.wrote.len();
    for until_fault in 0..=length {
        for most in [1, 2, 4096] {
            if !is_prefix(page.alloc(), files, whole, until_fault, most) {
                page.put("=> no prefix after ");
                page.put_fault(until_fault, most);
                page.put("\n");
                return;
            }
        }
    }
    page.put("=> a prefix up to each of ");
    page.put(length);
    page.put(" bytes\n");
}
