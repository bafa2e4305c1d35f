//! A listing, labels and a map, byte for byte.
use std::test::Fail;
use tb_codegen::{Options, compile};
use tb_compiled::Notation;
use tb_engine_listing::make;

/// Of two lines with one number the last counts. A line's number may be an address of the code.
const SOURCE: &str = "10 REM ONCE\n10 PRINT \"HI\"\n20 gosub 3072\n3072 LET B=A*2\n3080 RETURN\n";

/// The text of a PRINT, with the names of the addresses.
const PRINTED: &str = "  BNE at0C10 ; 0C05  D0 09
  LDX #$0A ; 0C07  A2 0A
  LDY #$00 ; 0C09  A0 00
  LDA #$00 ; 0C0B  A9 00
  JMP fault_line ; 0C0D  4C AD 0B
at0C10:
  LDA #<text0C23 ; 0C10  A9 23
  STA $FB ; 0C12  85 FB  left
  LDA #>text0C23 ; 0C14  A9 0C
  STA $FC ; 0C16  85 FC  left+1
  LDA #$02 ; 0C18  A9 02
  STA $C06C ; 0C1A  8D 6C C0  length
  JSR text ; 0C1D  20 D9 09
  JMP at0C25 ; 0C20  4C 25 0C
text0C23:
  .byte $48,$49 ; 0C23  HI
at0C25:
  LDA #$00 ; 0C25  A9 00
  STA $C034 ; 0C27  8D 34 C0  column
  LDA #$0D ; 0C2A  A9 0D
  JSR $FFD2 ; 0C2C  20 D2 FF  chrout
; 20 gosub 3072
line20:
";

/// What belongs to no line.
const AFTER_LINES: &str = "past:
  LDX #$08 ; 0CD2  A2 08
  LDY #$0C ; 0CD4  A0 0C
  LDA #$07 ; 0CD6  A9 07
  JMP fault_line ; 0CD8  4C AD 0B
find:
  LDA #<line_table ; 0CDB  A9 F0
  STA $FD ; 0CDD  85 FD  right
  LDA #>line_table ; 0CDF  A9 0C
  STA $FE ; 0CE1  85 FE  right+1
  LDA #$04 ; 0CE3  A9 04
  STA $C06A ; 0CE5  8D 6A C0  count
  LDA #$00 ; 0CE8  A9 00
  STA $C06B ; 0CEA  8D 6B C0  count+1
  JMP search ; 0CED  4C 92 0A
line_table:
  .word $000A ; 0CF0  0A 00
  .word line10 ; 0CF2  00 0C
  .word $0014 ; 0CF4  14 00
  .word line20 ; 0CF6  2F 0C
  .word $0C00 ; 0CF8  00 0C
  .word line3072 ; 0CFA  74 0C
  .word $0C08 ; 0CFC  08 0C
  .word line3080 ; 0CFE  97 0C
";

const LABELS: &str = "al C:0bf3 .poll
al C:0c00 .line10
al C:0c2f .line20
al C:0c74 .line3072
al C:0c97 .line3080
al C:0cf0 .line_table
al C:c000 .varA
";

const MAP: &str = "part        addr   bytes    cost
block       080D    1011      64
line 10     0C00      47      62
line 20     0C2F      69     132
line 3072   0C74      35     180
line 3080   0C97      89      84
line_table  0CF0      16       0
sum         080D    1267     522
left        0D00   37632   37366
";

fn contains(text: &[u8], part: &[u8]) -> bool {
    for start in 0..text.len() {
        if text.split_at(start).1.starts_with(part) {
            return true;
        }
    }
    false
}

#[test]
fn listings_labels_and_maps_have_their_names(rt: HostRuntime) -> Result<(), Fail> {
    let source = SOURCE.as_bytes();
    let program = compile(rt.alloc(), source, Options { seed: 1 })?;
    let made = make(rt.alloc(), source, Notation::Plain, &program)?;
    assert!(rt; contains(&made.listing, PRINTED.as_bytes()));
    assert!(rt; made.listing.ends_with(AFTER_LINES.as_bytes()));
    assert!(rt; contains(&made.labels, LABELS.as_bytes()));
    assert!(rt; made.map.as_slice() == MAP.as_bytes());
    Ok(())
}

#[test]
fn a_text_of_one_byte_is_in_its_comment(rt: HostRuntime) -> Result<(), Fail> {
    let source = b"10 PRINT \"*\"\n";
    let program = compile(rt.alloc(), source, Options { seed: 1 })?;
    let made = make(rt.alloc(), source, Notation::Plain, &program)?;
    let sent = b"  LDA #$2A ; 0C10  A9 2A \"*\"\n  JSR send ; 0C12  20 1F 08\n";
    assert!(rt; contains(&made.listing, sent));
    Ok(())
}
