//! Whole tables, compared with those that an independent processor counted by the manual's cycles.
use crate::profile::programs::{profiles, programs, shelf_of};
use std::test::Fail;

#[test]
fn tables_are_those_of_an_independent_count(rt: HostRuntime) -> Result<(), Fail> {
    for program in programs() {
        let mut shelf = shelf_of(rt.alloc(), program);
        let status = profiles(rt.alloc(), program, &mut shelf);
        assert_eq!(rt; status, program.status, "{}", program.name);
        let [table, _] = shelf.saved.as_slice() else {
            return Err(Fail::new("no table and page"));
        };
        assert_eq!(rt;
            table.as_slice(),
            program.table.as_bytes(),
            "{}",
            program.name
        );
    }
    Ok(())
}
