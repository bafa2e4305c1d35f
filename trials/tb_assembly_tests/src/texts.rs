//! A line as long as a file may be.
use std::alloc::{AllocError, Global};
use std::test::Fail;
use tb_assembly_output::{Assembled, Manner, SourceFile, assemble_texts};

/// The most bytes of a file.
const MOST: usize = 1_048_576;

fn library(alloc: Global, text: Vec<u8>) -> Result<Vec<SourceFile>, AllocError> {
    let mut files = Vec::new(alloc);
    files.push(SourceFile {
        path: Vec::from_slice(alloc, b"a.asm")?,
        text: Some(text),
    })?;
    Ok(files)
}

// What is written of a text of one file: the PRG file, or all that is wrong.
fn answer(alloc: Global, text: Vec<u8>) -> Result<Vec<u8>, Fail> {
    let library = library(alloc, text)?;
    let manner = Manner {
        at: 0xc000,
        long: false,
    };
    match assemble_texts(alloc, &library, manner) {
        Ok(Assembled::Refused(said)) => Ok(said),
        Ok(Assembled::Made(made)) => Ok(made.prg),
        _ => Err(Fail::new("no answer")),
    }
}

// A text, and one byte so often behind it that it has as many bytes as a file may have.
fn filled(alloc: Global, text: &str, byte: u8) -> Result<Vec<u8>, AllocError> {
    let mut filled = Vec::from_slice(alloc, text.as_bytes())?;
    filled.resize(MOST, byte)?;
    Ok(filled)
}

#[test]
fn a_line_may_be_as_long_as_a_file(rt: HostRuntime) -> Result<(), Fail> {
    let alloc = rt.alloc();
    let comment = answer(alloc, filled(alloc, " nop;", b'x')?)?;
    assert_eq!(rt; comment.as_slice(), b"\x00\xc0\xea".as_slice());
    let signs = answer(alloc, filled(alloc, " lda #1", b'-')?)?;
    assert!(rt;
        signs.starts_with(b"a.asm:1:1048577: error: a value is missing\n    1 |  lda #1---")
    );
    let text = answer(alloc, filled(alloc, " .text \"", b'a')?)?;
    assert!(rt; text.starts_with(b"a.asm:1:8: error: the text has no second quote\n"));
    Ok(())
}
