//! Search in line tables of several sizes.
use crate::routines::setup::{Call, Called, PROGRAM, ROMS, plain};
use std::alloc::Global;
use std::test::Fail;
use tb_compiled_kept::{COUNT, LINE, TABLE, WANTED};
use tb_runtime16::Routine;
use tb_words::next_seed;

// The address of a line's code, if it is one of 10, 20, up to ten times the count.
fn address_of(number: u16, count: u16) -> Option<u16> {
    (number % 10 == 0 && (1..=count).contains(&(number / 10))).then(|| next_seed(number))
}

// The table of those lines.
fn table(alloc: Global, count: u16) -> Result<Vec<u8>, Fail> {
    let mut bytes = Vec::new(alloc);
    for number in (10..=u16::MAX).step_by(10).take(usize::from(count)) {
        bytes.extend_from_slice(&number.to_le_bytes())?;
        bytes.extend_from_slice(&next_seed(number).to_le_bytes())?;
    }
    Ok(bytes)
}

fn search(
    alloc: Global,
    rom: Option<u16>,
    table: &[u8],
    count: u16,
    number: u16,
) -> Result<Called, Fail> {
    Call {
        words: &[
            (WANTED, number),
            (TABLE, PROGRAM),
            (COUNT, count),
            (LINE, 10),
        ],
        loaded: table,
        ..plain(Routine::Search)
    }
    .run(alloc, rom)
}

// Whether Search gives a number's address, or faults if it has none.
fn is_found(
    alloc: Global,
    rom: Option<u16>,
    table: &[u8],
    count: u16,
    number: u16,
) -> Result<bool, Fail> {
    let called = search(alloc, rom, table, count, number)?;
    Ok(match address_of(number, count) {
        Some(address) => called.gives(address) && called.word(WANTED) == Some(number),
        None => called.faults(b"", 1),
    })
}

// Whether each line of a table is found, and numbers near it are not.
fn finds_lines(alloc: Global, rom: Option<u16>, count: u16) -> Result<bool, Fail> {
    let table = table(alloc, count)?;
    for tens in 0..=count {
        let number = tens.wrapping_mul(10);
        for number in [number, number.wrapping_add(5)] {
            if !is_found(alloc, rom, &table, count, number)? {
                return Ok(false);
            }
        }
    }
    Ok(true)
}

#[test]
fn search_finds_what_is_there(rt: HostRuntime) -> Result<(), Fail> {
    for rom in ROMS {
        for count in [1, 2, 3, 4, 5, 63, 64, 65, 1000] {
            assert!(rt; finds_lines(rt.alloc(), rom, count)?, "{count}");
        }
    }
    Ok(())
}

#[test]
fn search_compares_both_bytes(rt: HostRuntime) -> Result<(), Fail> {
    for rom in ROMS {
        for count in [1, 2, 3, 1000] {
            let table = table(rt.alloc(), count)?;
            // one byte is that of the first or the last line, and words that are negative when signed
            for number in [
                9, 10, 11, 266, 276, 286, 2560, 9984, 10000, 10001, 10256, 32767, 32768, 32778,
                65535,
            ] {
                assert!(rt;
                    is_found(rt.alloc(), rom, &table, count, number)?,
                    "{number}"
                );
            }
        }
    }
    Ok(())
}
