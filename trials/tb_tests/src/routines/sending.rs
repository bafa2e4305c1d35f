//! Number, Text and Zone: what they send.
use crate::routines::setup::{Call, Called, EDGES, PROGRAM, ROMS, plain};
use std::alloc::Global;
use std::test::Fail;
use tb_compiled_kept::{COLUMN, LEFT, LENGTH, POINTER};
use tb_runtime16::Routine;
use tb_words::{digits, next_seed};

// The column after bytes are sent.
fn column_after(column: u8, text: &[u8]) -> u8 {
    let mut after = column;
    for &byte in text {
        after = if byte == 13 { 0 } else { after.wrapping_add(1) };
    }
    after
}

// Whether a call sent this from a column on.
fn is_sent(called: &Called, column: u8, text: &[u8]) -> bool {
    called.sends(text) && called.byte(COLUMN) == Some(column_after(column, text))
}

// Whether Number sends this for a word, from a column that varies with it.
fn sends_number(alloc: Global, rom: Option<u16>, word: u16, text: &[u8]) -> Result<bool, Fail> {
    let [column, _] = word.to_be_bytes();
    let called = Call {
        words: &[(LEFT, word)],
        bytes: &[(COLUMN, column)],
        ..plain(Routine::Number)
    }
    .run(alloc, rom)?;
    Ok(is_sent(&called, column, text))
}

// Words at which one digit more, or another way to the digits, begins, and those before them.
const LENGTHS: [(u16, &[u8]); 22] = [
    (9, b"9"),
    (10, b"10"),
    (99, b"99"),
    (100, b"100"),
    (199, b"199"),
    (200, b"200"),
    (255, b"255"),
    (256, b"256"),
    (300, b"300"),
    (500, b"500"),
    (767, b"767"),
    (768, b"768"),
    (999, b"999"),
    (1000, b"1000"),
    (1009, b"1009"),
    (9999, b"9999"),
    (10000, b"10000"),
    (25599, b"25599"),
    (25600, b"25600"),
    (30000, b"30000"),
    (32767, b"32767"),
    (32768, b"-32768"),
];

#[test]
fn number_sends_the_digits(rt: HostRuntime) -> Result<(), Fail> {
    for rom in ROMS {
        for (word, text) in LENGTHS {
            assert!(rt; sends_number(rt.alloc(), rom, word, text)?, "{word}");
            let opposite = word.wrapping_neg();
            let negative = digits(opposite.cast_signed());
            assert!(rt;
                sends_number(rt.alloc(), rom, opposite, negative.as_slice())?,
                "{opposite}"
            );
        }
        for word in EDGES {
            let text = digits(word.cast_signed());
            assert!(rt;
                sends_number(rt.alloc(), rom, word, text.as_slice())?,
                "{word}"
            );
        }
        let mut word = 1;
        for _ in 0..1000 {
            word = next_seed(word);
            let text = digits(word.cast_signed());
            assert!(rt;
                sends_number(rt.alloc(), rom, word, text.as_slice())?,
                "{word}"
            );
        }
    }
    Ok(())
}

// This many bytes from a seed, 13 among them.
fn noisy_text(alloc: Global, count: usize) -> Result<Vec<u8>, Fail> {
    let mut text = Vec::new(alloc);
    let mut seed = 1;
    for _ in 0..count {
        seed = next_seed(seed);
        let [high, _] = seed.to_be_bytes();
        text.push(high)?;
    }
    Ok(text)
}

// Whether Text sends the first bytes of a text that lies at an address.
fn sends_first(
    alloc: Global,
    rom: Option<u16>,
    text: &[u8],
    length: u8,
    place: u16,
) -> Result<bool, Fail> {
    let called = Call {
        words: &[(u16::from(POINTER), place)],
        bytes: &[(LENGTH, length), (COLUMN, length)],
        loaded: text,
        at: place,
        ..plain(Routine::Text)
    }
    .run(alloc, rom)?;
    let sent = text.get(..usize::from(length)).unwrap_or(&[]);
    Ok(is_sent(&called, length, sent))
}

#[test]
fn text_sends_bytes(rt: HostRuntime) -> Result<(), Fail> {
    let text = noisy_text(rt.alloc(), 255)?;
    for rom in ROMS {
        for length in [0, 1, 2, 100, 254, 255] {
            // within a page, over the end of one, and up to the end of the memory for programs
            for place in [PROGRAM, 0x0dff, 0x9f01] {
                let holds = sends_first(rt.alloc(), rom, &text, length, place)?;
                assert!(rt; holds, "{length} from {place}");
            }
        }
    }
    Ok(())
}

// Whether Zone sends this many spaces from a column.
fn goes_by(alloc: Global, rom: Option<u16>, column: u8, spaces: u8) -> Result<bool, Fail> {
    let called = Call {
        bytes: &[(COLUMN, column)],
        ..plain(Routine::Zone)
    }
    .run(alloc, rom)?;
    let text = b"        ".get(..usize::from(spaces)).unwrap_or(&[]);
    Ok(is_sent(&called, column, text))
}

#[test]
fn zone_sends_spaces(rt: HostRuntime) -> Result<(), Fail> {
    for rom in ROMS {
        for (column, spaces) in [(0, 8), (7, 1), (8, 8), (13, 3)] {
            assert!(rt; goes_by(rt.alloc(), rom, column, spaces)?, "{column}");
        }
        for column in 0..=255u8 {
            assert!(rt;
                goes_by(rt.alloc(), rom, column, 8 - column % 8)?,
                "{column}"
            );
        }
    }
    Ok(())
}
