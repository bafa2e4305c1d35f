//! Commands of the stepper: from readers that fail, cut off after each byte, and as long as they may be.
use crate::cut::engines::{has_said, step};
use std::alloc::{AllocError, Global};
use std::test::Fail;
use tb_driver::{Outcome, Tracked};
use tb_test_support::FailingReader;

const SOURCE: &[u8] = b"10 A=5\n20 END\n";

/// A command, and the answers if the commands end after each of its bytes, with `|` between two.
type Row = (&'static str, &'static str);

/// Commands in their order. What comes after `q` has no answer.
static ROWS: [Row; 11] = [
    ("s", "080E A=00 X=00 Y=00 S=F0 P=30 - running"),
    ("b", "080D A=00 X=00 Y=00 S=F0 P=30 - running"),
    ("b", "nothing back"),
    ("g 20", "what?|what?|no such line|at 20"),
    ("v A", "what?|what?|5"),
    ("e A*2-1", "what?|what?|5|what?|10|what?|9"),
    ("e 1/0", "what?|what?|1|what?|division by zero"),
    ("d", "0"),
    ("x", "what?"),
    ("q", ""),
    ("s", ""),
];

// The table is named here alone, since each function that names it takes long to prove.
fn rows() -> &'static [Row] {
    &ROWS
}

// Whether the stepper answers commands with a text, and ends as done.
fn answers(alloc: Global, commands: &[u8], text: &[u8]) -> Result<bool, AllocError> {
    let mut out = Tracked::new(Vec::new(alloc));
    let report = step(
        alloc,
        &mut Tracked::new(SOURCE),
        &mut Tracked::new(commands),
        &mut out,
    )?;
    Ok(report.status() == 0 && out.stream.as_slice() == text)
}

// Appends an answer's line, if there is one.
fn append_answer(text: &mut Vec<u8>, answer: &str) -> Result<(), AllocError> {
    text.extend_from_slice(answer.as_bytes())?;
    if !answer.is_empty() {
        text.push(b'\n')?;
    }
    Ok(())
}

// Whether the commands are answered, also with one more after them that is cut off after each of its bytes. Leaves that
// one there whole, and in the text what they answer.
fn answers_one_more(
    alloc: Global,
    row: &Row,
    commands: &mut Vec<u8>,
    text: &mut Vec<u8>,
) -> Result<bool, Fail> {
    let (command, prefixes) = row;
    let after = text.len();
    if !answers(alloc, commands, text)? {
        return Ok(false);
    }
    for (byte, answer) in command.bytes().zip(prefixes.split('|')) {
        commands.push(byte)?;
        text.truncate(after);
        append_answer(text, answer)?;
        if !answers(alloc, commands, text)? {
            return Ok(false);
        }
    }
    commands.push(b'\n')?;
    Ok(true)
}

// Whether each prefix of all commands is answered. Leaves the last one that was tried.
fn answers_each(alloc: Global, commands: &mut Vec<u8>, text: &mut Vec<u8>) -> Result<bool, Fail> {
    for row in rows() {
        if !answers_one_more(alloc, row, commands, text)? {
            return Ok(false);
        }
    }
    Ok(answers(alloc, commands, text)?)
}

#[test]
fn each_prefix_of_commands_is_answered(rt: HostRuntime) -> Result<(), Fail> {
    let mut commands = Vec::new(rt.alloc());
    let mut text = Vec::new(rt.alloc());
    let holds = answers_each(rt.alloc(), &mut commands, &mut text)?;
    assert!(rt; holds, "{commands:?}");
    Ok(())
}

fn append_commands(commands: &mut Vec<u8>) -> Result<(), Fail> {
    for (command, _) in rows() {
        commands.extend_from_slice(command.as_bytes())?;
        commands.push(b'\n')?;
    }
    Ok(())
}

// Whether the stepper ends in a read fault and answers nothing if the reader of commands fails.
fn notices(
    alloc: Global,
    commands: &[u8],
    until_fault: usize,
    most: usize,
) -> Result<bool, AllocError> {
    let mut source = Tracked::new(SOURCE);
    let mut reader = Tracked::new(FailingReader::new(commands, until_fault, most));
    let mut out = Tracked::new(Vec::new(alloc));
    let report = step(alloc, &mut source, &mut reader, &mut out)?;
    Ok(
        report.outcome == Outcome::ReadFault
            && (report.status(), source.failures(), reader.failures()) == (3, 0, 1)
            && out.stream.is_empty()
            && report.warnings.is_empty(),
    )
}

// The first length after which a failure is not noticed.
fn first_unnoticed(alloc: Global, commands: &[u8]) -> Result<Option<usize>, Fail> {
    for until_fault in 0..=commands.len() {
        for &most in &[1, 7, 4096] {
            if !notices(alloc, commands, until_fault, most)? {
                return Ok(Some(until_fault));
            }
        }
    }
    Ok(None)
}

#[test]
fn a_reader_of_commands_that_fails(rt: HostRuntime) -> Result<(), Fail> {
    let mut commands = Vec::new(rt.alloc());
    append_commands(&mut commands)?;
    assert_eq!(rt; first_unnoticed(rt.alloc(), &commands)?, None);
    Ok(())
}

// Whether the stepper, given these commands, has this status, says this and answers this, and its reader has not
// failed.
fn ends(
    alloc: Global,
    commands: &[u8],
    status: u8,
    said: &[u8],
    answered: &[u8],
) -> Result<bool, Fail> {
    let mut commands = Tracked::new(commands);
    let mut out = Tracked::new(Vec::new(alloc));
    let report = step(alloc, &mut Tracked::new(SOURCE), &mut commands, &mut out)?;
    let is_answered = out.stream.as_slice() == answered && commands.failures() == 0;
    Ok(has_said(alloc, &report, status, said)? && is_answered)
}

// The same for this many spaces as commands.
fn ends_at_spaces(
    alloc: Global,
    length: usize,
    status: u8,
    said: &[u8],
    answered: &[u8],
) -> Result<bool, Fail> {
    let spaces = vec![in alloc; b' '; length]?;
    ends(alloc, &spaces, status, said, answered)
}

#[test]
fn the_longest_commands(rt: HostRuntime) -> Result<(), Fail> {
    let rows: [(usize, u8, &[u8], &[u8]); 2] = [
        (1_048_576, 0, b"", b"what?\n"),
        (1_048_577, 3, b"tbc: read fault\n", b""),
    ];
    for &(length, status, said, answered) in &rows {
        let holds = ends_at_spaces(rt.alloc(), length, status, said, answered)?;
        assert!(rt; holds, "{length}");
    }
    Ok(())
}
