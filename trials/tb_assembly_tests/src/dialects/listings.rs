//! Whole listings, byte for byte.
use std::test::Fail;
use tb_assembly_dialects::{Dialect, list_for};

/// A program at `$0801`: the line `10 SYS2061`, and code with what assemblers spell in different ways.
pub const PROGRAM: [u8; 37] = [
    0x0b, 0x08, 0x0a, 0x00, 0x9e, b'2', b'0', b'6', b'1', 0x00, 0x00, 0x00, 0xa2, 0x00, 0xbd, 0x00,
    0x00, 0xf0, 0x07, 0x20, 0xd2, 0xff, 0xe8, 0x4c, 0x0f, 0x08, 0x0a, 0x02, 0x6c, 0x02, 0x00, 0x4c,
    0x10, 0x08, 0xb6, 0x12, 0x60,
];

pub const FOR_64TASS: &str = "; 64tass -o OUT.prg IN
CHROUT = $FFD2
* = $0801
  .byte $0B,$08,$0A,$00,$9E,$32,$30,$36,$31,$00,$00,$00 ; 0801 the BASIC line
  LDX #$00 ; 080D
AT080F:
  LDA @w $0000,X ; 080F
  BEQ AT081B ; 0812
  JSR CHROUT ; 0814
  INX ; 0817
  JMP AT080F ; 0818
AT081B:
  ASL A ; 081B
  .byte $02 ; 081C
  JMP ($0002) ; 081D
  JMP $0810 ; 0820
  LDX $12,Y ; 0823
  RTS ; 0825
";

const FOR_CA65: &str = "; ca65 -o IN.o IN && ld65 -t none -o OUT.prg IN.o
CHROUT = $FFD2
  .word $0801 ; the load address
  .org $0801
  .byte $0B,$08,$0A,$00,$9E,$32,$30,$36,$31,$00,$00,$00 ; 0801 the BASIC line
  LDX #$00 ; 080D
AT080F:
  LDA a:$0000,X ; 080F
  BEQ AT081B ; 0812
  JSR CHROUT ; 0814
  INX ; 0817
  JMP AT080F ; 0818
AT081B:
  ASL A ; 081B
  .byte $02 ; 081C
  JMP ($0002) ; 081D
  JMP $0810 ; 0820
  LDX $12,Y ; 0823
  RTS ; 0825
";

const FOR_ACME: &str = "; acme -f cbm -o OUT.prg IN
CHROUT = $FFD2
* = $0801
  !byte $0B,$08,$0A,$00,$9E,$32,$30,$36,$31,$00,$00,$00 ; 0801 the BASIC line
  LDX #$00 ; 080D
AT080F:
  LDA+2 $0000,X ; 080F
  BEQ AT081B ; 0812
  JSR CHROUT ; 0814
  INX ; 0817
  JMP AT080F ; 0818
AT081B:
  ASL ; 081B
  !byte $02 ; 081C
  JMP ($0002) ; 081D
  JMP $0810 ; 0820
  LDX $12,Y ; 0823
  RTS ; 0825
";

const FOR_XA: &str = "; xa -o OUT.prg IN
CHROUT = $FFD2
  .word $0801 ; the load address
* = $0801
  .byte $0B,$08,$0A,$00,$9E,$32,$30,$36,$31,$00,$00,$00 ; 0801 the BASIC line
  LDX #$00 ; 080D
AT080F:
  LDA !$0000,X ; 080F
  BEQ AT081B ; 0812
  JSR CHROUT ; 0814
  INX ; 0817
  JMP AT080F ; 0818
AT081B:
  ASL ; 081B
  .byte $02 ; 081C
  JMP ($0002) ; 081D
  JMP $0810 ; 0820
  LDX $12,Y ; 0823
  RTS ; 0825
";

#[test]
fn each_assembler_has_its_listing(rt: HostRuntime) -> Result<(), Fail> {
    for (dialect, wanted) in [
        (Dialect::Tass64, FOR_64TASS),
        (Dialect::Ca65, FOR_CA65),
        (Dialect::Acme, FOR_ACME),
        (Dialect::Xa, FOR_XA),
    ] {
        let listing = list_for(rt.alloc(), dialect, 0x0801, &PROGRAM)?;
        assert_eq!(rt; listing.as_slice(), wanted.as_bytes());
    }
    Ok(())
}
