//! Computed jumps in programs of several sizes: the numbers of few lines are compared with, others are looked up.
use crate::machines::LIMIT;
use crate::rows::{PLAIN, Row};
use std::alloc::{AllocError, Global};
use std::test::Fail;
use tb_kernal::{Quiet, Rude};

/// Small programs: the edges of words, and of the return list.
const SMALL: [(&str, &str); 8] = [
    ("10 GOTO A", "\n!1 AT 10\n"),
    ("10 GOSUB A", "\n!1 AT 10\n"),
    ("1 B=B+1\n2 IF B=2 END\n3 GOTO B", ""),
    ("10 GOTO 20-A\n20 PRINT 1;\n30 END", "1"),
    ("10 GOTO 276-A\n20 PRINT 1", "\n!1 AT 10\n"),
    ("10 GOTO A-32767-1\n32767 PRINT 1", "\n!1 AT 10\n"),
    ("10 GOSUB 10+A", "\n!4 AT 10\n"),
    (
        "10 A=A+1\n20 IF A>500 GOSUB B\n30 GOSUB 10+0*A",
        "\n!1 AT 20\n",
    ),
];

/// The lines that the typed number may lead to: two of them have the same low byte.
const TARGETS: &str = "300 PRINT \"L\"\n301 GOTO 32766\n556 PRINT \"M\"\n557 GOTO 32766\n\
    32766 RETURN\n32767 PRINT \"H\"\n";

/// How many lines a program has without the fillers between its targets.
const LINES: u16 = 10;

/// How many lines the programs have: fewer than 64 are compared with.
const SIZES: [u16; 6] = [10, 40, 63, 64, 65, 280];

/// What is typed, and what is shown after the question.
const TYPED: [(&[u8], &str); 10] = [
    (b"300\r", "L\nB\n"),
    (b"556\r", "M\nB\n"),
    (b"32767\r", "H\n\n!7 AT 32767\n"),
    (b"32766\r", "B\n"),
    (b"44\r", "\n!1 AT 2\n"),
    (b"812\r", "\n!1 AT 2\n"),
    (b"0\r", "\n!1 AT 2\n"),
    (b"-1\r", "\n!1 AT 2\n"),
    (b"-32768\r", "\n!1 AT 2\n"),
    (b"299\r", "\n!1 AT 2\n"),
];

// A program of so many lines that jumps to a number that is typed.
fn program_of(alloc: Global, lines: u16) -> Result<String, Fail> {
    let mut source = String::new(alloc);
    source.push_str("1 INPUT A\n2 GOSUB A\n3 PRINT \"B\"\n4 END\n")?;
    source.push_str(TARGETS)?;
    for line in 1000..1000 + u32::from(lines.saturating_sub(LINES)) {
        let text = format!(in alloc; "{line} GOTO 4\n")?;
        source.push_str(text.as_str())?;
    }
    Ok(source)
}

/// Whether a program shows this beside a quiet ROM and beside a rude one.
pub fn shows(alloc: Global, row: &Row<'_>, shown: &[u8]) -> Result<bool, Fail> {
    let quiet = row.run_by_engine(alloc, LIMIT, &mut Quiet)?;
    let rude = row.run_by_engine(alloc, LIMIT, &mut Rude::new(3))?;
    Ok(quiet.shown.as_slice() == shown && rude.shown.as_slice() == shown)
}

// What is shown after a number is typed.
fn after_question(alloc: Global, shown: &str) -> Result<String, AllocError> {
    format!(in alloc; "? \n{shown}")
}

// The first number that leads elsewhere in a program of so many lines.
fn first_wrong(alloc: Global, lines: u16) -> Result<Option<usize>, Fail> {
    let source = program_of(alloc, lines)?;
    for (index, &(keys, shown)) in TYPED.iter().enumerate() {
        let row = Row {
            source: source.as_str(),
            keys,
            ..PLAIN
        };
        let wanted = after_question(alloc, shown)?;
        if !shows(alloc, &row, wanted.as_bytes())? {
            return Ok(Some(index));
        }
    }
    Ok(None)
}

#[test]
fn computed_jumps_lead_where_they_should(rt: HostRuntime) -> Result<(), Fail> {
    for &lines in &SIZES {
        assert_eq!(rt; first_wrong(rt.alloc(), lines)?, None, "{lines} lines");
    }
    Ok(())
}

#[test]
fn small_programs_jump_where_they_should(rt: HostRuntime) -> Result<(), Fail> {
    for &(source, shown) in &SMALL {
        let row = Row { source, ..PLAIN };
        assert!(rt; shows(rt.alloc(), &row, shown.as_bytes())?, "{source}");
    }
    Ok(())
}
