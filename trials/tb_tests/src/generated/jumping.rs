//! Generated programs with computed jumps, over lists of lines of each size, to lines and beside them: the numbers of
//! few lines are compared with, others are looked up.
use crate::generated::pieces::Draws;
use crate::generated::programs::Case;
use crate::generated::trials::{file_agrees_twice, run_of};
use std::alloc::{AllocError, Global};
use std::test::Fail;
use tb_codegen::{Options, compile};
use tb_compiled_kept::WANTED;
use tb_basic_meaning::RunEnd;

/// How many programs are tried.
const PROGRAMS: u16 = 500;

/// How many lines they have: fewer than 64 are compared with.
const SIZES: [u16; 16] = [7, 8, 9, 10, 11, 12, 14, 17, 24, 40, 61, 62, 63, 64, 65, 80];

/// How far apart lines are that follow each other: a multiple of 256 leaves their low bytes equal.
const GAPS: [u16; 16] = [
    1, 1, 1, 1, 2, 5, 10, 10, 100, 127, 128, 255, 256, 256, 256, 257,
];

/// The first line.
const FIRSTS: [u16; 16] = [
    1, 1, 1, 2, 10, 100, 127, 128, 255, 255, 256, 256, 257, 1000, 8192, 12000,
];

/// How far from a line a number is that may be none.
const MISSES: [u16; 16] = [
    1, 1, 65535, 65535, 2, 256, 256, 65280, 65280, 512, 257, 65279, 32768, 32768, 32767, 16384,
];

/// How many lines stand at the head of each program: two jumps to what is typed.
const HEAD: usize = 6;

/// How many numbers are typed: lines, and then a number that may be none, over and over.
const TYPED: u16 = 5;

// The numbers of a program's lines.
fn numbers_of(alloc: Global, draws: &mut Draws) -> Result<Vec<u16>, AllocError> {
    let mut numbers = Vec::new(alloc);
    let mut number = draws.one_of(&FIRSTS);
    for _ in 0..draws.one_of(&SIZES) {
        numbers.push(number)?;
        number = number.saturating_add(draws.one_of(&GAPS));
    }
    if draws.word() < 16384 {
        numbers.pop();
        numbers.push(32767)?;
    }
    Ok(numbers)
}

// One of these numbers; the first and the last ones are chosen more often.
fn line_of(draws: &mut Draws, numbers: &[u16]) -> u16 {
    let count = numbers.len().max(1);
    let index = match draws.word() / 8192 {
        0 => 0,
        1 => count.saturating_sub(1),
        _ => usize::from(draws.word()) % count,
    };
    *numbers.get(index).unwrap_or(&1)
}

// A statement that goes to the number that is typed.
fn jump(draws: &mut Draws, word: &'static str) -> (&'static str, &'static str) {
    let to = match draws.word() / 8192 {
        0 => "A+0*B",
        1 => "A-10+10",
        2 => "2*A-A",
        _ => "A",
    };
    (word, to)
}

// A statement of the head.
fn head(draws: &mut Draws, index: usize) -> (&'static str, &'static str) {
    match index {
        1 => jump(draws, "GOSUB "),
        2 => ("PRINT ", "A,B"),
        4 => {
            let goes = draws.word() < 16384;
            jump(draws, if goes { "GOTO " } else { "GOSUB " })
        }
        5 => ("PRINT ", "B"),
        _ => ("INPUT ", "A"),
    }
}

// A statement behind the head: its line is told by what is printed, or by B. It may lead back to the first line.
fn behind(draws: &mut Draws) -> (&'static str, &'static str) {
    match draws.word() / 4096 {
        0..=1 => ("GOTO ", "F"),
        2..=5 => ("RETURN", ""),
        6 => ("END", ""),
        7..=9 => ("B=B+B+", "1"),
        _ => ("PRINT ", "L"),
    }
}

// Appends a line. In its statement F stands for the first line, and L for this one.
fn push_line(
    alloc: Global,
    source: &mut Vec<u8>,
    first: u16,
    number: u16,
    statement: (&str, &str),
) -> Result<(), AllocError> {
    let (word, rest) = statement;
    let line = match rest {
        "F" => format!(in alloc; "{number} {word}{first}\n")?,
        "L" => format!(in alloc; "{number} {word}{number};\n")?,
        _ => format!(in alloc; "{number} {word}{rest}\n")?,
    };
    source.extend_from_slice(line.as_bytes())?;
    Ok(())
}

// A program with these lines.
fn source_of(alloc: Global, draws: &mut Draws, numbers: &[u16]) -> Result<Vec<u8>, AllocError> {
    let first = *numbers.first().unwrap_or(&1);
    let mut source = Vec::new(alloc);
    for (index, number) in numbers.iter().enumerate() {
        let statement = if index < HEAD {
            head(draws, index)
        } else {
            behind(draws)
        };
        push_line(alloc, &mut source, first, *number, statement)?;
    }
    Ok(source)
}

// What is typed: mostly the numbers of lines.
fn keys_of(alloc: Global, draws: &mut Draws, numbers: &[u16]) -> Result<Vec<u8>, AllocError> {
    let mut keys = Vec::new(alloc);
    for index in 0..TYPED {
        let mut number = line_of(draws, numbers);
        if index > 3 && draws.word() < 32768 {
            number = number.wrapping_add(draws.one_of(&MISSES));
        }
        let typed = number.cast_signed();
        keys.extend_from_slice(format!(in alloc; "{typed}\r")?.as_bytes())?;
    }
    Ok(keys)
}

// A program, and what it is run on.
fn case_of(alloc: Global, index: u16) -> Result<Case, AllocError> {
    let mut draws = Draws::new(index);
    let numbers = numbers_of(alloc, &mut draws)?;
    Ok(Case {
        source: source_of(alloc, &mut draws, &numbers)?,
        seed: index,
        keys: keys_of(alloc, &mut draws, &numbers)?,
        answers: Vec::new(alloc),
    })
}

/// How often programs come to what they are made for.
#[derive(Default, Drop)]
struct Counts {
    /// They compare numbers.
    compared: u16,
    /// They wait for one more number.
    waiting: u16,
    /// They end at END.
    ended: u16,
    /// They go to no line, or return from no call.
    faulted: u16,
}

// Whether a program begins its search with comparisons: a load of the number's bytes into A and X.
fn has_comparisons(file: &[u8]) -> bool {
    let [low, high] = WANTED.to_le_bytes();
    let [next, page] = (WANTED + 1).to_le_bytes();
    file.windows(6).any(|bytes| bytes == [0xad, low, high, 0xae, next, page].as_slice())
}

// Whether a program sends what its source sends. Counts what it comes to.
fn is_the_sources(alloc: Global, case: &Case, counts: &mut Counts) -> Result<bool, Fail> {
    let run = run_of(alloc, case)?;
    match run.end {
        RunEnd::Waits => counts.waiting = counts.waiting.saturating_add(1),
        RunEnd::Ended => counts.ended = counts.ended.saturating_add(1),
        _ => counts.faulted = counts.faulted.saturating_add(1),
    }
    let program = compile(alloc, &case.source, Options { seed: case.seed })?;
    if has_comparisons(program.prg()) {
        counts.compared = counts.compared.saturating_add(1);
    }
    Ok(file_agrees_twice(alloc, program.prg(), case, &run)?)
}

// The first program that sends something else. Counts what all come to.
fn first_strayed(alloc: Global, counts: &mut Counts) -> Result<Option<Case>, Fail> {
    for index in 0..PROGRAMS {
        let case = case_of(alloc, index)?;
        if !is_the_sources(alloc, &case, counts)? {
            return Ok(Some(case));
        }
    }
    Ok(None)
}

#[test]
fn computed_jumps_lead_where_their_sources_do(rt: HostRuntime) -> Result<(), Fail> {
    let mut counts = Counts::default();
    let strayed = first_strayed(rt.alloc(), &mut counts)?;
    assert!(rt; strayed.is_none(), "{strayed:?}");
    let Counts {
        compared,
        waiting,
        ended,
        faulted,
    } = counts;
    assert!(rt; 300 <= compared, "{compared}");
    assert!(rt; compared <= 450, "{compared}");
    assert!(rt;
        20 <= waiting.min(ended).min(faulted),
        "{waiting} {ended} {faulted}"
    );
    Ok(())
}
