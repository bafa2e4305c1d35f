//! Worked rows.
use std::alloc::Global;
use std::test::Fail;
use tb_basic_renumber::{JumpFault, Notation, Numbering, Refusal, renumber};

const TENS: Numbering = Numbering {
    first: 10,
    step: 10,
};

/// Sources, and their texts from 10 on by steps of 10.
const TEXTS: [(&str, &str); 16] = [
    ("1 END", "10 END"),
    ("1 GOTO 1\n", "10 GOTO 10\n"),
    (
        "5 GOSUB 7\n6 END\n7 RETURN\n",
        "10 GOSUB 30\n20 END\n30 RETURN\n",
    ),
    // in the file's order
    (
        "7 RETURN\n5 GOSUB 7\n6 END",
        "30 RETURN\n10 GOSUB 30\n20 END",
    ),
    // a constant expression, from its first token to its last, and all else as it stood
    (" 1 2  go to  2 + ( 3*3 ) + 1  \n", " 10  go to  10  \n"),
    (
        "1 if a=1 then if b<2 go sub 0002\r2rem Hi  \r\n",
        "10 if a=1 then if b<2 go sub 20\r20rem Hi  \r\n",
    ),
    ("3GOTO3", "10GOTO10"),
    ("3 GOTO -(-3)", "10 GOTO 10"),
    ("3 GOTO 65535+4", "10 GOTO 10"),
    // what is replaced or taken out, and bare numbers, are left out; lines of spaces stay
    (
        "1 A=1\n1 A=2\n\n2 B=1\n  \n2\n3 END",
        "10 A=2\n\n  \n20 END",
    ),
    ("2\n1 PRINT \"GOTO 1\"", "10 PRINT \"GOTO 1\""),
    ("1 REM GOTO 9", "10 REM GOTO 9"),
    ("1 PRINT G;O;T;O: ", "!"),
    // a byte 13 before an empty line that ends in a byte 10
    ("1 A=1\r2\n\n3 B=1", "10 A=1\r\n\n20 B=1"),
    ("1 A=1\r\n2\r\n\r\n3 B=1\r\n", "10 A=1\r\n\r\n20 B=1\r\n"),
    ("1 GOTO=GOTO+1", "!"),
];

/// Sources that are refused, from 10 on by steps of 10.
const REFUSED: [(&str, Refusal); 8] = [
    (
        "9 A=1\n2 GOTO A\n1 GOTO 1",
        Refusal::Jump(2, JumpFault::Computed),
    ),
    (
        "9 GOTO 10*RND(2)\n8 GOSUB 7",
        Refusal::Jump(8, JumpFault::NoLine(7)),
    ),
    (
        "9 IF A=1 THEN GOTO 8\n9 GOTO 1/0",
        Refusal::Jump(9, JumpFault::Computed),
    ),
    ("9 GOTO -1", Refusal::Jump(9, JumpFault::NoLine(65_535))),
    ("9 GOTO 32768", Refusal::Jump(9, JumpFault::NoLine(32_768))),
    // what is replaced says nothing
    (
        "9 GOTO A\n9 GOSUB 8\n7 END\n8\n",
        Refusal::Jump(9, JumpFault::NoLine(8)),
    ),
    (
        "1 IF A=1 THEN IF B=1 THEN GOSUB C",
        Refusal::Jump(1, JumpFault::Computed),
    ),
    ("1 GOTO 1\n2 GOTO 3", Refusal::Jump(2, JumpFault::NoLine(3))),
];

/// Sources with signs, and their texts from 10 on by steps of 10.
const SIGNED: [(&str, &str); 5] = [
    ("1 PRINT \"{clr}\"", "10 PRINT \"{clr}\""),
    // signs stay as they are written
    (
        "1 PRINT \"{ClR}{003 down}[{c1}]\"\n2 GOTO 1\n",
        "10 PRINT \"{ClR}{003 down}[{c1}]\"\n20 GOTO 10\n",
    ),
    (
        "7 if a=1 print \"{home}GOTO 1\"\r\n2 goto 7\r\n",
        "20 if a=1 print \"{home}GOTO 1\"\r\n10 goto 20\r\n",
    ),
    // what is replaced is left out
    ("1 PRINT \"[\"\n1 PRINT \"]\"\n", "10 PRINT \"]\"\n"),
    // a line stands for 255 bytes at most, after it gets its number too
    ("1 PRINT \"{246 up}\"", "10 PRINT \"{246 up}\""),
];

// The text, or `!` if there is none.
fn text_of(alloc: Global, source: &[u8], numbering: Numbering) -> Result<Vec<u8>, Fail> {
    match renumber(alloc, Notation::Plain, source, numbering) {
        Ok(text) => Ok(text),
        Err(_) => Ok(Vec::from_slice(alloc, b"!")?),
    }
}

#[test]
fn sources_get_other_numbers(rt: HostRuntime) -> Result<(), Fail> {
    for (source, wanted) in TEXTS {
        let text = text_of(rt.alloc(), source.as_bytes(), TENS)?;
        assert_eq!(rt; text.as_slice(), wanted.as_bytes(), "{source:?}");
    }
    Ok(())
}

#[test]
fn sources_with_signs_get_other_numbers(rt: HostRuntime) -> Result<(), Fail> {
    let alloc = rt.alloc();
    for (source, wanted) in SIGNED {
        let Ok(text) = renumber(alloc, Notation::Signs, source.as_bytes(), TENS) else {
            return Err(Fail::new("no answer"));
        };
        assert_eq!(rt; text.as_slice(), wanted.as_bytes(), "{source:?}");
        let refusal = renumber(alloc, Notation::Plain, source.as_bytes(), TENS).err();
        assert!(rt; matches!(refusal, Some(Refusal::Source(_))), "{source:?}");
    }
    Ok(())
}

#[test]
fn sources_without_signs_get_the_same_numbers(rt: HostRuntime) -> Result<(), Fail> {
    for (source, wanted) in TEXTS {
        let found = renumber(rt.alloc(), Notation::Signs, source.as_bytes(), TENS);
        match found {
            Ok(text) => assert_eq!(rt; text.as_slice(), wanted.as_bytes(), "{source:?}"),
            Err(_) => assert_eq!(rt; wanted, "!", "{source:?}"),
        }
    }
    Ok(())
}

#[test]
fn what_stands_for_too_much_is_refused(rt: HostRuntime) -> Result<(), Fail> {
    let source = b"1 PRINT \"{247 up}\"";
    let refusal = renumber(rt.alloc(), Notation::Signs, source, TENS).err();
    assert_eq!(rt; refusal, Some(Refusal::Other));
    Ok(())
}

#[test]
fn jumps_that_go_nowhere_or_anywhere_are_refused(rt: HostRuntime) -> Result<(), Fail> {
    for (source, wanted) in REFUSED {
        let refusal = renumber(rt.alloc(), Notation::Plain, source.as_bytes(), TENS).err();
        assert_eq!(rt; refusal, Some(wanted), "{source:?}");
    }
    Ok(())
}

#[test]
fn numbers_end_at_the_highest(rt: HostRuntime) -> Result<(), Fail> {
    let source = b"1 GOTO 3\n2 END\n3 END";
    for (first, step, wanted) in [
        (1, 1, "1 GOTO 3\n2 END\n3 END"),
        (32_765, 1, "32765 GOTO 32767\n32766 END\n32767 END"),
        (1, 16_383, "1 GOTO 32767\n16384 END\n32767 END"),
        (32_766, 1, "!"),
        (1, 16_384, "!"),
        (32_767, 32_767, "!"),
    ] {
        let text = text_of(rt.alloc(), source, Numbering { first, step })?;
        assert_eq!(rt; text.as_slice(), wanted.as_bytes());
    }
    let beyond = Numbering {
        first: 32_766,
        step: 1,
    };
    assert_eq!(rt;
        renumber(rt.alloc(), Notation::Plain, source, beyond).err(),
        Some(Refusal::AboveHighest)
    );
    Ok(())
}

// A line with a remark that has so many bytes in all.
fn long_line(alloc: Global, number: &str, length: usize) -> Result<Vec<u8>, Fail> {
    let mut line = Vec::from_slice(alloc, number.as_bytes())?;
    line.extend_from_slice(b"REM")?;
    line.resize(length, b'x')?;
    Ok(line)
}

#[test]
fn a_line_has_255_bytes_at_most(rt: HostRuntime) -> Result<(), Fail> {
    let alloc = rt.alloc();
    for (length, refusal) in [(254, None), (255, Some(Refusal::LineTooLong(9)))] {
        let mut source = Vec::from_slice(alloc, b"8 END\n")?;
        source.extend_from_slice(long_line(alloc, "9", length)?.as_slice())?;
        source.extend_from_slice(b"\n")?;
        source.extend_from_slice(long_line(alloc, "7", 255)?.as_slice())?;
        source.extend_from_slice(b"\n7 END")?;
        let found = renumber(alloc, Notation::Plain, source.as_slice(), TENS).err();
        assert_eq!(rt; found, refusal, "{length}");
    }
    Ok(())
}

#[test]
fn what_is_no_program_is_refused(rt: HostRuntime) -> Result<(), Fail> {
    for source in ["", "\n", "1 END\n1", "1 FOR", "PRINT", "0 END", "1 A=65536"] {
        let refusal = renumber(rt.alloc(), Notation::Plain, source.as_bytes(), TENS).err();
        assert!(rt; matches!(refusal, Some(Refusal::Source(_))), "{source:?}");
    }
    Ok(())
}
