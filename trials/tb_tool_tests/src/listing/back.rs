//! Listings that are assembled back, and that have every line under its name.
use std::alloc::{AllocError, Global};
use std::test::Fail;
use tb_asm::{assemble, read_text};
use tb_codegen::{Options, compile};
use tb_compiled::Notation;
use tb_engine_listing::{Made, make};
use tb_words::next_seed;

/// Where a program's code begins.
const CODE_AT: u16 = 0x080d;

/// How many bytes a PRG file has before its code.
const HEADER: usize = 14;

/// The most bytes of a text that is assembled.
const MOST_READ: usize = 1_048_576;

/// How many programs are generated, and of how many lines.
const PROGRAMS: u16 = 200;

const LINES: u16 = 12;

/// The statements of generated programs.
const STATEMENTS: [&[u8]; 16] = [
    b"PRINT \"NOW\";A",
    b"PRINT \"A, B; C\",B*C",
    b"LET A=B+2*C",
    b"B=RND(A)/7-C",
    b"C=-A",
    b"INPUT A,B",
    b"IF A<B THEN GOTO 30",
    b"IF A=3072 PRINT \"LINE\"",
    b"IF A>=B IF C<>1 GOSUB 20",
    b"GOTO 10*A",
    b"GOTO 80",
    b"GOSUB 40",
    b"GOSUB A+B",
    b"RETURN",
    b"REM  NOTE ;:",
    b"END",
];

fn push_line(
    alloc: Global,
    source: &mut Vec<u8>,
    number: u16,
    statement: &[u8],
) -> Result<(), AllocError> {
    source.extend_from_slice(format!(in alloc; "{number} ")?.as_bytes())?;
    source.extend_from_slice(statement)?;
    source.push(b'\n')?;
    Ok(())
}

// Whether a listing gives the code back.
fn gives_back(alloc: Global, prg: &[u8], made: &Made) -> Result<bool, Fail> {
    let items = read_text(alloc, &made.listing)?;
    let image = assemble(alloc, CODE_AT, &items)?;
    let code = prg.split_at(HEADER.min(prg.len())).1;
    Ok(image.bytes.as_slice() == code && made.listing.len() <= MOST_READ)
}

// Whether a listing has a label for each line of that step.
fn has_lines(alloc: Global, made: &Made, step: u16, count: u16) -> Result<bool, AllocError> {
    let mut lines = made.listing.split(|byte| *byte == b'\n');
    for index in 1..=count {
        let number = step.wrapping_mul(index);
        let label = format!(in alloc; "line{number}:")?;
        if !lines.any(|line| line == label.as_bytes()) {
            return Ok(false);
        }
    }
    Ok(true)
}

fn is_listed(alloc: Global, source: &[u8], step: u16, count: u16) -> Result<bool, Fail> {
    let program = compile(alloc, source, Options { seed: 1 })?;
    let made = make(alloc, source, Notation::Plain, &program)?;
    Ok(gives_back(alloc, program.prg(), &made)? && has_lines(alloc, &made, step, count)?)
}

fn generated(alloc: Global, seed: &mut u16) -> Result<Vec<u8>, AllocError> {
    let mut source = Vec::new(alloc);
    for index in 1..=LINES {
        *seed = next_seed(*seed);
        let statement = STATEMENTS[usize::from(*seed / 4096)];
        push_line(alloc, &mut source, index * 10, statement)?;
    }
    Ok(source)
}

// The first generated program that is not listed.
fn first_unlisted(alloc: Global) -> Result<Option<Vec<u8>>, Fail> {
    let mut seed = 1;
    for _ in 0..PROGRAMS {
        let source = generated(alloc, &mut seed)?;
        if !is_listed(alloc, &source, 10, LINES)? {
            return Ok(Some(source));
        }
    }
    Ok(None)
}

#[test]
fn generated_programs_are_listed(rt: HostRuntime) -> Result<(), Fail> {
    let unlisted = first_unlisted(rt.alloc())?;
    assert!(rt; unlisted.is_none(), "{unlisted:?}");
    Ok(())
}

// `count` lines of a statement.
fn lines_of(alloc: Global, count: u16, statement: &[u8]) -> Result<Vec<u8>, AllocError> {
    let mut source = Vec::new(alloc);
    for number in 1..=count {
        push_line(alloc, &mut source, number, statement)?;
    }
    Ok(source)
}

#[test]
fn the_most_lines_are_listed(rt: HostRuntime) -> Result<(), Fail> {
    let source = lines_of(rt.alloc(), 1050, b"END")?;
    assert!(rt; is_listed(rt.alloc(), &source, 1, 1050)?);
    Ok(())
}

// A text that fills a line.
fn longest_text(alloc: Global) -> Result<Vec<u8>, AllocError> {
    let mut statement = Vec::from_slice(alloc, b"PRINT \"")?;
    statement.resize(236 + statement.len(), b'x')?;
    statement.push(b'"')?;
    Ok(statement)
}

#[test]
fn the_longest_texts_are_listed(rt: HostRuntime) -> Result<(), Fail> {
    let statement = longest_text(rt.alloc())?;
    let source = lines_of(rt.alloc(), 127, &statement)?;
    assert!(rt; is_listed(rt.alloc(), &source, 1, 127)?);
    Ok(())
}
