//! PRG files that fail in mid-stream.
use super::listings::{FOR_64TASS, PROGRAM};
use std::alloc::{AllocError, Global};
use std::test::Fail;
use tb_assembly_dialects::{Dialect, spell};
use tb_engines::{End, Outcome};
use tb_program_files::list_file;
use tb_test_support::Shelf;

fn file(alloc: Global) -> Result<Vec<u8>, AllocError> {
    let mut file = Vec::new(alloc);
    file.extend_from_slice(&[0x01, 0x08])?;
    file.extend_from_slice(&PROGRAM)?;
    Ok(file)
}

#[test]
fn each_fault_of_a_file_is_told(rt: HostRuntime) -> Result<(), Fail> {
    let alloc = rt.alloc();
    let file = file(alloc)?;
    for until_fault in 0..=file.len() {
        let mut shelf = Shelf::new(alloc, file.as_slice(), until_fault, 1);
        let end = list_file(alloc, &mut shelf, "a.prg", Some(Dialect::Tass64));
        assert_eq!(rt; end, Outcome::ReadFault);
        assert!(rt; shelf.saved.is_empty());
    }
    for (room, wanted) in [(0, Outcome::WriteFault), (1, Outcome::Ended(End::Done))] {
        let mut shelf = Shelf::new(alloc, file.as_slice(), usize::MAX, room);
        let end = list_file(alloc, &mut shelf, "a.prg", Some(Dialect::Tass64));
        assert_eq!(rt; end, wanted);
        assert!(rt;
            shelf
                .saved
                .iter()
                .all(|text| text.as_slice() == FOR_64TASS.as_bytes())
        );
        assert_eq!(rt; shelf.saved.len(), room);
    }
    Ok(())
}

#[test]
fn what_is_no_prg_file_is_refused(rt: HostRuntime) -> Result<(), Fail> {
    let alloc = rt.alloc();
    for file in [&[0x01u8][..], &[0xff, 0xff, 0x00, 0x00][..]] {
        for dialect in [None, Some(Dialect::Acme)] {
            let mut shelf = Shelf::new(alloc, file, usize::MAX, 1);
            let end = list_file(alloc, &mut shelf, "a.prg", dialect);
            assert_eq!(rt; end.status(), 1);
            assert!(rt; shelf.saved.is_empty());
        }
    }
    Ok(())
}

#[test]
fn a_listing_of_a_build_is_spelled(rt: HostRuntime) -> Result<(), Fail> {
    let file = [
        0x01, 0x08, 0x0b, 0x08, 0x0a, 0x00, 0x9e, 0x32, 0x30, 0x36, 0x31, 0x00, 0x00, 0x00, 0x60,
    ];
    let listing = b"start:\n  RTS ; 080D\n";
    let text = spell(rt.alloc(), Dialect::Xa, 0x0801, &file[2..], listing)?;
    assert_eq!(rt; text.as_slice(), FOR_XA.as_bytes());
    Ok(())
}

const FOR_XA: &str = "; xa -o OUT.prg IN
  .word $0801 ; the load address
* = $0801
  .byte $0B,$08,$0A,$00,$9E,$32,$30,$36,$31,$00,$00,$00 ; 0801 the BASIC line
START:
  RTS ; 080D
";
