//! Push and Pop: the return list at each length.
use crate::routines::setup::{Call, Called, ROMS, plain};
use std::alloc::Global;
use std::test::Fail;
use tb_compiled_kept::{LEFT, LINE, NOTES, RETURN_HIGH, RETURN_LOW};
use tb_runtime16::Routine;
use tb_words::next_seed;

// The most notes.
const MOST: u16 = 500;

// A note for each number.
fn note_of(number: u16) -> u16 {
    next_seed(number)
}

// The bytes from the first note's low byte to the last one's high byte, if the list is full.
fn full_list(alloc: Global) -> Result<Vec<u8>, Fail> {
    let mut bytes = Vec::new(alloc);
    for place in 0..RETURN_HIGH - RETURN_LOW {
        bytes.push(note_of(place).to_le_bytes()[0])?;
    }
    for number in 0..MOST {
        bytes.push(note_of(number).to_le_bytes()[1])?;
    }
    Ok(bytes)
}

// A call with a full list of which this many notes count, at line 10.
fn call_with(
    alloc: Global,
    rom: Option<u16>,
    routine: Routine,
    list: &[u8],
    count: u16,
) -> Result<Called, Fail> {
    Call {
        words: &[(LEFT, 0x1234), (NOTES, count), (LINE, 10)],
        loaded: list,
        at: RETURN_LOW,
        ..plain(routine)
    }
    .run(alloc, rom)
}

// Whether all notes of the full list but one are as they were, and that one is this.
fn holds_list(called: &Called, but: Option<(u16, u16)>) -> bool {
    for number in 0..MOST {
        let return_address = match but {
            Some((at, return_address)) if at == number => return_address,
            _ => note_of(number),
        };
        let [low, high] = return_address.to_le_bytes();
        if called.byte(RETURN_LOW.saturating_add(number)) != Some(low)
            || called.byte(RETURN_HIGH.saturating_add(number)) != Some(high)
        {
            return false;
        }
    }
    true
}

// Whether Push notes a word after this many notes.
fn pushes(alloc: Global, rom: Option<u16>, list: &[u8], count: u16) -> Result<bool, Fail> {
    Ok(has_pushed(&call_with(alloc, rom, Routine::Push, list, count)?, count))
}

fn has_pushed(called: &Called, count: u16) -> bool {
    if count == MOST {
        return called.faults(b"", 4) && holds(called, MOST, None);
    }
    called.sends(b"") && holds(called, count.saturating_add(1), Some((count, 0x1234)))
}

// Whether this many notes count, and the list is as `holds_list` says.
fn holds(called: &Called, count: u16, but: Option<(u16, u16)>) -> bool {
    called.word(NOTES) == Some(count) && holds_list(called, but)
}

// Whether Pop takes the last note of this many.
fn pops(alloc: Global, rom: Option<u16>, list: &[u8], count: u16) -> Result<bool, Fail> {
    Ok(has_popped(&call_with(alloc, rom, Routine::Pop, list, count)?, count))
}

fn has_popped(called: &Called, count: u16) -> bool {
    match count.checked_sub(1) {
        Some(left) => called.gives(note_of(left)) && holds(called, left, None),
        None => called.faults(b"", 5) && holds(called, 0, None),
    }
}

#[test]
fn push_notes_a_word(rt: HostRuntime) -> Result<(), Fail> {
    let list = full_list(rt.alloc())?;
    for rom in ROMS {
        for count in 0..=MOST {
            assert!(rt; pushes(rt.alloc(), rom, &list, count)?, "{count}");
        }
    }
    Ok(())
}

#[test]
fn pop_gives_the_newest(rt: HostRuntime) -> Result<(), Fail> {
    let list = full_list(rt.alloc())?;
    for rom in ROMS {
        for count in 0..=MOST {
            assert!(rt; pops(rt.alloc(), rom, &list, count)?, "{count}");
        }
    }
    Ok(())
}
