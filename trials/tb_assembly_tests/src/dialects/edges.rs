//! Programs on the edges, and texts that are spelled.
use std::test::Fail;
use tb_assembly_dialects::{Dialect, list_for, spell};

/// Programs without a BASIC line, each with its address and its listing for 64tass after the line that assembles it.
const LISTINGS: [(u16, &[u8], &str); 9] = [
    (0xc000, &[], "* = $C000\n"),
    // a branch past an end of the memory stands as bytes, and names nothing
    (
        0x0000,
        &[0xd0, 0xee, 0xd0, 0xfc, 0xf0, 0x00],
        "* = $0000\nAT0000:\n  .byte $D0,$EE ; 0000\n  BNE AT0000 ; 0002\n  BEQ $0006 ; 0004\n",
    ),
    (
        0xfffc,
        &[0xf0, 0x01, 0x30, 0x00],
        "* = $FFFC\n  BEQ $FFFF ; FFFC\n  .byte $30,$00 ; FFFE\n",
    ),
    (
        0xff00,
        &[0x10, 0x80, 0x10, 0x7f],
        "* = $FF00\n  BPL $FE82 ; FF00\n  BPL $FF83 ; FF02\n",
    ),
    // jumps have no shorter form; a label in page zero
    (
        0x0010,
        &[
            0x4c, 0x10, 0x00, 0x20, 0x80, 0x00, 0xad, 0x10, 0x00, 0xae, 0x00, 0x01,
        ],
        "* = $0010\nAT0010:\n  JMP AT0010 ; 0010\n  JSR $0080 ; 0013\n  LDA @w $0010 ; 0016\n  LDX $0100 ; 0019\n",
    ),
    // all services once, in the order of their addresses; only jumps name them
    (
        0xc000,
        &[
            0x4c, 0xe4, 0xff, 0x20, 0x81, 0xff, 0x20, 0xe4, 0xff, 0xad, 0xd2, 0xff, 0x20, 0x82,
            0xff,
        ],
        "SCINIT = $FF81\nGETIN = $FFE4\n* = $C000\n  JMP GETIN ; C000\n  JSR SCINIT ; C003\n  JSR GETIN ; C006\n  LDA $FFD2 ; C009\n  JSR $FF82 ; C00C\n",
    ),
    // a service inside the program has the label of its line
    (
        0xffd2,
        &[0x4c, 0xd2, 0xff],
        "* = $FFD2\nATFFD2:\n  JMP ATFFD2 ; FFD2\n",
    ),
    // what begins no documented instruction, and what is cut off
    (
        0x1000,
        &[0x6c, 0xff, 0x10, 0x20, 0x00],
        "* = $1000\n  .byte $6C ; 1000\n  .byte $FF ; 1001\n  BPL $1024 ; 1002\n  BRK ; 1004\n",
    ),
    (
        0x0801,
        &[0x0b, 0x08, 0x0a, 0x00, 0x9e, 0x31, 0x00],
        "* = $0801\n  .byte $0B ; 0801\n  PHP ; 0802\n  ASL A ; 0803\n  BRK ; 0804\n  .byte $9E ; 0805\n  AND ($00),Y ; 0806\n",
    ),
];

#[test]
fn programs_without_a_line_are_listed_whole(rt: HostRuntime) -> Result<(), Fail> {
    for (at, bytes, wanted) in LISTINGS {
        let listing = list_for(rt.alloc(), Dialect::Tass64, at, bytes)?;
        let wanted = format!(in rt.alloc(); "; 64tass -o OUT.prg IN\n{wanted}")?;
        assert_eq!(rt; listing.as_slice(), wanted.as_bytes());
    }
    Ok(())
}

/// Bytes at `$0801` that are one line, or just not.
const LINES: [(&[u8], bool); 7] = [
    (&[0x07, 0x08, 0x00, 0x00, 0x9e, 0x00, 0x00, 0x00], true),
    (&[0x06, 0x08, 0x00, 0x00, 0x00, 0x00, 0x00], true),
    (&[0x08, 0x08, 0x00, 0x00, 0x9e, 0x00, 0x00, 0x00], false),
    (&[0x07, 0x09, 0x00, 0x00, 0x9e, 0x00, 0x00, 0x00], false),
    (&[0x07, 0x08, 0x00, 0x00, 0x9e, 0x00, 0x01, 0x00], false),
    (&[0x07, 0x08, 0x00, 0x00, 0x9e, 0x00, 0x00, 0x01], false),
    (&[0x07, 0x08, 0x00, 0x00, 0x9e, 0x00, 0x00], false),
];

#[test]
fn a_line_is_found_only_where_one_is(rt: HostRuntime) -> Result<(), Fail> {
    for (bytes, is_line) in LINES {
        for at in [0x0801u16, 0x0800] {
            let listing = list_for(rt.alloc(), Dialect::Acme, at, bytes)?;
            let said = listing.as_slice().ends_with(b"the BASIC line\n");
            assert_eq!(rt; said, is_line && at == 0x0801);
        }
    }
    Ok(())
}

/// Lines of a text for `tbc asm`, and how 64tass and xa take them.
const SPELLED: [(&str, &str, &str); 10] = [
    ("; A=B/*C\\", "; A=B/*C\\", "; A=B/ *C?"),
    ("RTS ; A:B::", "  RTS ; A:B::", "  RTS ; A?B??"),
    ("start:", "START:", "START:"),
    (".word start", "  .word START ", "  .word START "),
    (
        "  .byte $12,$34,$56",
        "  .byte $12,$34,$56 ",
        "  .byte $12,$34,$56 ",
    ),
    (
        "lda #<start ; low",
        "  LDA #<START ; low",
        "  LDA #<START ; low",
    ),
    ("LDA #>START", "  LDA #>START ", "  LDA #>START "),
    ("x1: sta start,y", "X1:  STA START,Y ", "X1:  STA START,Y "),
    ("JMP (start)", "  JMP (START) ", "  JMP (START) "),
    ("INC $0012,X", "  INC @w $0012,X ", "  INC !$0012,X "),
];

#[test]
fn lines_are_spelled(rt: HostRuntime) -> Result<(), Fail> {
    for (line, for_64tass, for_xa) in SPELLED {
        let source = format!(in rt.alloc(); "{line}\n")?;
        let listing = spell(rt.alloc(), Dialect::Tass64, 0x1000, &[], source.as_bytes())?;
        let wanted = format!(in rt.alloc(); "; 64tass -o OUT.prg IN\n* = $1000\n{for_64tass}\n")?;
        assert_eq!(rt; listing.as_slice(), wanted.as_bytes());
        let listing = spell(rt.alloc(), Dialect::Xa, 0x1000, &[], source.as_bytes())?;
        let wanted = format!(in rt.alloc();
            "; xa -o OUT.prg IN\n  .word $1000 ; the load address\n* = $1000\n{for_xa}\n"
        )?;
        assert_eq!(rt; listing.as_slice(), wanted.as_bytes());
    }
    Ok(())
}
