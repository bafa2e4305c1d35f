//! Generated sources: the interpreter runs them and what they become alike.
use std::alloc::{AllocError, Global};
use std::test::Fail;
use tb_basic_meaning::{Place, RunEnd, SourceRun, run_source};
use tb_parser::{Program, parse_in};
use tb_basic_renumber::{Notation, Numbering, renumber};
use tb_words::next_seed;

/// How many sources are generated.
const SOURCES: u16 = 300;

/// How many lines a run takes at most.
const MOST_LINES: u64 = 200;

/// How many statements have no signs.
const PLAIN: u16 = 16;

/// Statements, in which `#` stands for the number of a line. The last ones have signs.
const STATEMENTS: [&str; 18] = [
    "A=A+1",
    "LET B=B+A*3",
    "PRINT A;B",
    "PRINT \"GOTO 10 \",A",
    "print rnd(6)",
    "IF A<9 THEN GOTO #",
    "IF A<20 IF B<>3 GO SUB #",
    "IF RND(3)=1 THEN RETURN",
    "GOSUB #",
    "gosub (#)",
    "GOTO 0 + #",
    "RETURN",
    "INPUT C",
    "PRINT C/A",
    "REM GOTO #",
    "IF A>12 END",
    "PRINT \"{clr}{2 Down}[GOTO 10]{c1}\"",
    "if a>3 print \"{rvon}] \";a",
];

// Choices that a seed determines.
#[derive(Drop)]
struct Choices {
    seed: u16,
    notation: Notation,
}

impl Choices {
    // Every second source has signs.
    fn new(seed: u16) -> Choices {
        let notation = if seed % 2 == 0 {
            Notation::Signs
        } else {
            Notation::Plain
        };
        Choices { seed, notation }
    }

    // A statement, of those that a source may have.
    fn statement(&mut self) -> &'static str {
        let count = match self.notation {
            Notation::Plain => PLAIN,
            Notation::Signs => STATEMENTS.len() as u16,
        };
        STATEMENTS[usize::from(self.below(count)) % STATEMENTS.len()]
    }

    // A number below this one, which is not 0.
    fn below(&mut self, bound: u16) -> u16 {
        self.seed = next_seed(self.seed);
        if bound == 0 {
            0
        } else {
            (self.seed / 16) % bound
        }
    }
}

// Appends a statement that jumps, if it does, to one of these lines: this many, each 7 more than the one before.
fn push_statement(
    alloc: Global,
    text: &mut Vec<u8>,
    choices: &mut Choices,
    lines: u16,
) -> Result<(), AllocError> {
    for byte in choices.statement().as_bytes() {
        if *byte == b'#' {
            push_number(alloc, text, 7 * (choices.below(lines) % 100 + 1))?;
        } else {
            text.push(*byte)?;
        }
    }
    Ok(())
}

fn push_number(_alloc: Global, text: &mut Vec<u8>, number: u16) -> Result<(), AllocError> {
    text.extend_from_slice(tb_words::digits(number.cast_signed()).as_slice())
}

// A source whose program has so many lines, with some that are replaced or taken out, and some of spaces.
fn source_of(alloc: Global, choices: &mut Choices, lines: u8) -> Result<Vec<u8>, AllocError> {
    let lines = u16::from(lines);
    let mut text = Vec::new(alloc);
    for turn in 0..3 * lines {
        // the last third of the lines are those of the program
        let line = if turn < 2 * lines {
            choices.below(lines + 4)
        } else {
            turn - 2 * lines
        };
        push_number(alloc, &mut text, 7 * (line % 100 + 1))?;
        if turn >= 2 * lines || choices.below(3) > 0 {
            text.push(b' ')?;
            push_statement(alloc, &mut text, choices, lines)?;
        }
        text.extend_from_slice(match choices.below(4) {
            0 => b"\n  \n".as_slice(),
            1 => b"\r\n".as_slice(),
            _ => b"\n".as_slice(),
        })?;
    }
    Ok(text)
}

// What a run of a program sends and where it comes, with some keys.
fn run_of(alloc: Global, program: &Program, seed: u16) -> Result<SourceRun, AllocError> {
    run_source(alloc, program, seed, b"5\r-7\r12\r", b"\0\0\0", MOST_LINES)
}

// Whether the second place is the new number of the first one.
fn is_place(numbering: Numbering, program: &Program, old: Place, new: Place) -> bool {
    match (old, new) {
        (Place::At(old), Place::At(new)) => {
            tb_basic_renumber::Numbering::new_number(&numbering, program, old) == Some(new)
        }
        (Place::Past, Place::Past) => true,
        _ => false,
    }
}

// What was sent, without a fault's number of a line at its end.
fn without_line(sent: &[u8], end: RunEnd) -> &[u8] {
    if end != RunEnd::Faulted {
        return sent;
    }
    let mut length = sent.len();
    for (i, byte) in sent.iter().enumerate() {
        if *byte == b'!' {
            length = i;
        }
    }
    &sent[..length.min(sent.len())]
}

#[test]
fn generated_sources_run_alike(rt: HostRuntime) -> Result<(), Fail> {
    let alloc = rt.alloc();
    let mut renumbered = 0_u16;
    for seed in 1..=SOURCES {
        let mut choices = Choices::new(seed);
        let notation = choices.notation;
        let lines = 3 + choices.below(12).min(11) as u8;
        let source = source_of(alloc, &mut choices, lines)?;
        let Ok(old) = parse_in(alloc, notation, source.as_slice()) else {
            return Err(Fail::new("no answer"));
        };
        let numbering = Numbering {
            first: 1 + choices.below(50).min(49),
            step: 1 + choices.below(20).min(19),
        };
        let Ok(text) = renumber(alloc, notation, source.as_slice(), numbering) else {
            continue;
        };
        let Ok(new) = parse_in(alloc, notation, text.as_slice()) else {
            return Err(Fail::new("no answer"));
        };
        renumbered = renumbered.saturating_add(1);
        let before = run_of(alloc, &old, seed)?;
        let after = run_of(alloc, &new, seed)?;
        assert_eq!(rt; before.end, after.end, "{seed}");
        assert_eq!(rt;
            without_line(before.sent.as_slice(), before.end),
            without_line(after.sent.as_slice(), after.end),
            "{seed}"
        );
        if before.end == RunEnd::GoesOn {
            assert_eq!(rt; before.variables, after.variables, "{seed}");
            assert!(rt;
                is_place(numbering, &old, before.place, after.place),
                "{seed}"
            );
        }
    }
    assert_eq!(rt; renumbered, SOURCES);
    Ok(())
}
