//! Sources that fail in mid-stream, and the texts of refusals.
use std::alloc::Global;
use std::test::Fail;
use tb_program_files::{Numbering, RenumberOutcome, renumber_file};
use tb_engine_streams::Done;
use tb_test_support::Shelf;
use tb_basic_text::Notation;

const SOURCE: &[u8] = b"2 GOSUB 4\n3 GOTO 2\n4 RETURN\n";

const NEW: &[u8] = b"5 GOSUB 15\n10 GOTO 5\n15 RETURN\n";

const FIVES: Numbering = Numbering { first: 5, step: 5 };

fn renumbered(alloc: Global, shelf: &mut Shelf<'_>, notation: Notation) -> RenumberOutcome {
    renumber_file(alloc, shelf, "a.bas", notation, FIVES)
}

#[test]
fn each_fault_of_a_source_is_told(rt: HostRuntime) -> Result<(), Fail> {
    let alloc = rt.alloc();
    for until_fault in 0..=SOURCE.len() {
        let mut shelf = Shelf::new(alloc, SOURCE, until_fault, 1);
        let end = renumbered(alloc, &mut shelf, Notation::Plain);
        assert_eq!(rt; end, RenumberOutcome::ReadFault);
        assert!(rt; shelf.saved.is_empty());
    }
    for (room, wanted) in [
        (0, RenumberOutcome::WriteFault),
        (1, RenumberOutcome::Ended(Done)),
    ] {
        let mut shelf = Shelf::new(alloc, SOURCE, usize::MAX, room);
        let end = renumbered(alloc, &mut shelf, Notation::Plain);
        assert_eq!(rt; end, wanted);
        assert!(rt; shelf.saved.iter().all(|text| text.as_slice() == NEW));
        assert_eq!(rt; shelf.saved.len(), room);
    }
    Ok(())
}

#[test]
fn a_source_with_signs_is_read(rt: HostRuntime) -> Result<(), Fail> {
    let alloc = rt.alloc();
    let mut shelf = Shelf::new(alloc, b"1 PRINT \"{clr}\"\n2 GOTO 1\n", usize::MAX, 1);
    renumbered(alloc, &mut shelf, Notation::Signs);
    let [text] = shelf.saved.as_slice() else {
        return Err(Fail::new("no text"));
    };
    assert_eq!(rt;
        text.as_slice(),
        b"5 PRINT \"{clr}\"\n10 GOTO 5\n".as_slice()
    );
    Ok(())
}

#[test]
fn outcomes_have_texts_and_statuses(rt: HostRuntime) -> Result<(), Fail> {
    for (source, wanted, status) in [
        ("1 GOTO A", "line 1: computed jump", 1),
        ("7 GOTO -2", "line 7: no line -2", 1),
        ("7 GOSUB 2", "line 7: no line 2", 1),
        ("1 FOR", "1:3: syntax", 1),
        ("1 PRINT \"{clr}\"", "1:10: bad byte", 1),
        ("", "empty program", 1),
    ] {
        let mut shelf = Shelf::new(rt.alloc(), source.as_bytes(), usize::MAX, 1);
        let end = renumbered(rt.alloc(), &mut shelf, Notation::Plain);
        assert_eq!(rt; format!(in rt.alloc(); "{end}")?.as_str(), wanted);
        assert_eq!(rt; end.status(), status);
        assert!(rt; shelf.saved.is_empty());
    }
    Ok(())
}
