//! Files that fail, and that give few bytes at a time.
use crate::profile::programs::{LOOP, profiles, shelf_of};
use std::test::Fail;
use tb_test_support::Shelf;

#[test]
fn a_source_is_read_however_few_bytes_come_at_once(rt: HostRuntime) -> Result<(), Fail> {
    for most in 1..12 {
        let mut shelf = shelf_of(rt.alloc(), &LOOP);
        shelf.most = most;
        let status = profiles(rt.alloc(), &LOOP, &mut shelf);
        assert_eq!(rt; status, LOOP.status);
        assert_eq!(rt; shelf.saved.len(), 2);
        assert!(rt; shelf.saved[0].as_slice() == LOOP.table.as_bytes());
    }
    Ok(())
}

#[test]
fn a_source_that_fails_leaves_nothing(rt: HostRuntime) -> Result<(), Fail> {
    for until_fault in 0..=LOOP.source.len() {
        let mut shelf = Shelf::new(rt.alloc(), LOOP.source.as_bytes(), until_fault, 2);
        assert_eq!(rt; profiles(rt.alloc(), &LOOP, &mut shelf), 3);
        assert!(rt; shelf.saved.is_empty());
    }
    Ok(())
}

#[test]
fn a_table_that_is_not_written_has_no_page(rt: HostRuntime) -> Result<(), Fail> {
    for room in 0..2 {
        let mut shelf = Shelf::new(rt.alloc(), LOOP.source.as_bytes(), usize::MAX, room);
        assert_eq!(rt; profiles(rt.alloc(), &LOOP, &mut shelf), 3);
        assert_eq!(rt; shelf.saved.len(), room);
    }
    Ok(())
}

#[test]
fn a_refused_source_has_no_table(rt: HostRuntime) -> Result<(), Fail> {
    let mut shelf = Shelf::new(rt.alloc(), b"10 PRINT 1\n20 FOR I\n", usize::MAX, 2);
    assert_eq!(rt; profiles(rt.alloc(), &LOOP, &mut shelf), 1);
    assert!(rt; shelf.saved.is_empty());
    Ok(())
}
