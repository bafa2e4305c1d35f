//! The files of a build, and what becomes of them at a refusal and at a fault.
use std::alloc::Global;
use std::test::Fail;
use tb_compiled::CompileSettings;
use tb_engines::{End, Outcome, Report};
use tb_program_files::{BuildNames, build_file};
use tb_test_support::Shelf;

const SOURCE: &[u8] = b"10 GOTO 10\n";

const NAMES: BuildNames<'static> = BuildNames {
    out: "out.prg",
    labels: None,
    listing: Some("out.asm"),
    dialect: None,
    map: Some("out.map"),
    watch: Some("out.mon"),
};

fn built(alloc: Global, shelf: &mut Shelf<'_>) -> Report {
    build_file(alloc, shelf, "a.bas", CompileSettings::by_cost(1), NAMES)
}

#[test]
fn wanted_files_are_written(rt: HostRuntime) -> Result<(), Fail> {
    let alloc = rt.alloc();
    let mut shelf = Shelf::new(alloc, SOURCE, usize::MAX, 5);
    assert!(rt; built(alloc, &mut shelf).outcome == Outcome::Ended(End::Done));
    let [prg, listing, map, watch] = shelf.saved.as_slice() else {
        return Err(Fail::new("other files"));
    };
    assert!(rt; prg.starts_with(&[0x01, 0x08]));
    assert!(rt; listing.len() > 1000);
    assert!(rt; map.len() == 6 * 33);
    assert!(rt; watch.len() > 50_000);
    Ok(())
}

#[test]
fn nothing_is_written_of_a_refused_source(rt: HostRuntime) -> Result<(), Fail> {
    let alloc = rt.alloc();
    let mut shelf = Shelf::new(alloc, b"10 FOR", usize::MAX, 5);
    assert!(rt; matches!(built(alloc, &mut shelf).outcome, Outcome::Refused(_)));
    assert!(rt; shelf.saved.is_empty());
    Ok(())
}

#[test]
fn each_fault_of_a_source_is_told(rt: HostRuntime) -> Result<(), Fail> {
    let alloc = rt.alloc();
    for until_fault in 0..=SOURCE.len() {
        let mut shelf = Shelf::new(alloc, SOURCE, until_fault, 5);
        assert!(rt; built(alloc, &mut shelf).outcome == Outcome::ReadFault);
        assert!(rt; shelf.saved.is_empty());
    }
    Ok(())
}

#[test]
fn files_after_a_fault_are_left(rt: HostRuntime) -> Result<(), Fail> {
    let alloc = rt.alloc();
    for room in 0..4 {
        let mut shelf = Shelf::new(alloc, SOURCE, usize::MAX, room);
        assert!(rt; built(alloc, &mut shelf).outcome == Outcome::WriteFault);
        assert!(rt; shelf.saved.len() == room);
    }
    Ok(())
}
