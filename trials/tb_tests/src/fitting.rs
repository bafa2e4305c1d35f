//! Programs whose line table ends at the last byte that a program may take, and the same with one byte more.
use crate::generated::programs::Case;
use crate::generated::trials::{file_agrees_twice, run_of};
use std::alloc::{AllocError, Global};
use std::test::Fail;
use tb_codegen::{Options, compile_to_fit};
use tb_compiled::CompileError;

/// The bytes of a PRG file that takes all there is: the load address, and from $0801 to $9FFF.
const LARGEST: usize = 2 + 0xa000 - 0x0801;

/// The bytes from $0C00 on that are one too many.
const TOO_MANY: u32 = 0xa000 - 0x0c00 + 1;

/// A program that a letter makes longer by a byte: it prints letters, and then has a statement on each of many lines.
#[derive(Clone, Copy)]
struct Shape {
    statement: &'static [u8],
    lines: u16,
    /// The lines that follow.
    tail: &'static [u8],
    /// With how many letters it just fits.
    letters: usize,
}

const SHAPES: [Shape; 5] = [
    // The most lines.
    Shape {
        statement: b"END",
        lines: 1800,
        tail: b"",
        letters: 9,
    },
    // Jumps over nearly all of the code: forward, backward, both ways.
    Shape {
        statement: b"IF A>=0 GOTO 32000",
        lines: 1349,
        tail: b"32000 END\n",
        letters: 37,
    },
    Shape {
        statement: b"IF A=1 GOTO 10",
        lines: 1080,
        tail: b"",
        letters: 21,
    },
    Shape {
        statement: b"GOSUB 32000",
        lines: 517,
        tail: b"32000 RETURN\n",
        letters: 5,
    },
    Shape {
        statement: b"PRINT \"AND SO ON, LINE BY LINE, TO THE LAST ONE.\"",
        lines: 419,
        tail: b"",
        letters: 99,
    },
];

// Appends the letters' line and the others.
fn push_lines(alloc: Global, source: &mut Vec<u8>, shape: &Shape) -> Result<(), AllocError> {
    for index in 1..=shape.lines {
        let number = index.wrapping_mul(10);
        source.extend_from_slice(format!(in alloc; "{number} ")?.as_bytes())?;
        source.extend_from_slice(shape.statement)?;
        source.push(b'\n')?;
    }
    source.extend_from_slice(shape.tail)?;
    Ok(())
}

// A program of a shape with so many letters.
fn case_of(alloc: Global, shape: &Shape, letters: usize) -> Result<Case, AllocError> {
    let mut source = Vec::from_slice(alloc, b"1 PRINT \"")?;
    source.resize(source.len().saturating_add(letters), b'A')?;
    source.extend_from_slice(b"\"\n")?;
    push_lines(alloc, &mut source, shape)?;
    Ok(Case {
        source,
        seed: 1,
        keys: Vec::new(alloc),
        answers: Vec::new(alloc),
    })
}

// Whether a program takes all there is, and sends what its source sends.
fn fills_memory(alloc: Global, case: &Case) -> Result<bool, Fail> {
    let program = compile_to_fit(alloc, &case.source, Options { seed: case.seed })?;
    let run = run_of(alloc, case)?;
    Ok(program.prg().len() == LARGEST && file_agrees_twice(alloc, program.prg(), case, &run)?)
}

// Whether a program is refused, since it takes a byte too many.
fn is_a_byte_too_long(alloc: Global, case: &Case) -> bool {
    let answer = compile_to_fit(alloc, &case.source, Options { seed: case.seed });
    matches!(answer, Err(CompileError::TooLarge(bytes)) if bytes == TOO_MANY)
}

// Whether a shape just fits, and just doesn't with one letter more.
fn just_fits(alloc: Global, shape: &Shape) -> Result<bool, Fail> {
    let fitting = case_of(alloc, shape, shape.letters)?;
    let longer = case_of(alloc, shape, shape.letters.saturating_add(1))?;
    Ok(fills_memory(alloc, &fitting)? && is_a_byte_too_long(alloc, &longer))
}

#[test]
fn programs_may_end_at_9fff_and_no_farther(rt: HostRuntime) -> Result<(), Fail> {
    for shape in &SHAPES {
        let fits = just_fits(rt.alloc(), shape)?;
        assert!(rt; fits, "{:?}", shape.statement);
    }
    Ok(())
}
