//! Signs: worked rows, and texts there and back.
use std::alloc::Global;
use std::test::Fail;
use tb_basic_signs::{Character, byte_named, near_name, read_character, read_text, write_text};

/// Names and their bytes, from petcat's table.
const NAMES: [(&str, u8); 28] = [
    ("blk", 0x90),
    ("wht", 0x05),
    ("red", 0x1c),
    ("cyn", 0x9f),
    ("pur", 0x9c),
    ("grn", 0x1e),
    ("blu", 0x1f),
    ("yel", 0x9e),
    ("orng", 0x81),
    ("brn", 0x95),
    ("lred", 0x96),
    ("gry1", 0x97),
    ("gry2", 0x98),
    ("lgrn", 0x99),
    ("lblu", 0x9a),
    ("gry3", 0x9b),
    ("clr", 0x93),
    ("home", 0x13),
    ("down", 0x11),
    ("up", 0x91),
    ("left", 0x9d),
    ("rght", 0x1d),
    ("rvon", 0x12),
    ("rvof", 0x92),
    ("swlc", 0x0e),
    ("swuc", 0x8e),
    ("del", 0x14),
    ("inst", 0x94),
];

/// Texts and the bytes that they stand for.
const TEXTS: [(&str, &[u8]); 13] = [
    ("", &[]),
    ("Hello, world 1", b"HELLO, WORLD 1"),
    ("[]", &[91, 93]),
    ("{clr}", &[147]),
    ("{CLR}{Clr}", &[147, 147]),
    ("{3 down}x", &[17, 17, 17, 88]),
    ("{1 up}{02 up}", &[145, 145, 145]),
    ("{41}{c1}{C1}{ff}", &[65, 193, 193, 255]),
    ("{61}", &[97]),
    ("{00}", &[0]),
    ("{5b}{5D}", &[91, 93]),
    ("{rvon}[A]{rvof}", &[18, 91, 65, 93, 146]),
    ("{lblu}A{gry3}B{wht}", &[154, 65, 155, 66, 5]),
];

/// Texts with a place at which no character begins.
const NO_TEXTS: [&str; 25] = [
    "{7b}clr}",
    "{",
    "}",
    "{}",
    "{clr",
    "clr}",
    "{cls}",
    "{ clr}",
    "{clr }",
    "{0 down}",
    "{256 down}",
    "{3down}",
    "{3  down}",
    "{3 }",
    "{3}",
    "{3 41}",
    "{22}",
    "{0d}",
    "{0D}",
    "{1}",
    "{123}",
    "{4G}",
    "\\",
    "^",
    "\"",
];

/// What is written between braces, and the name that was probably meant, or nothing.
const NEAR: [(&str, &str); 24] = [
    ("cls}", "clr"),
    ("CLEAR}", "clr"),
    ("right}", "rght"),
    ("black}", "blk"),
    ("white}", "wht"),
    ("cyan}", "cyn"),
    ("purple}", "pur"),
    ("yellow}", "yel"),
    ("orange}", "orng"),
    ("brown}", "brn"),
    ("gray1}", "gry1"),
    ("rvson}", "rvon"),
    ("3 dwn}", "down"),
    ("3 Up", "up"),
    ("clr", "clr"),
    ("home\"", "home"),
    ("0 down}", "down"),
    ("insert}", "inst"),
    ("dele}", "del"),
    ("xyzzy}", ""),
    ("}", ""),
    ("", ""),
    ("12", ""),
    ("3 ", ""),
];

// The bytes of a text, or none.
fn bytes_of(alloc: Global, text: &str) -> Result<Option<Vec<u8>>, Fail> {
    Ok(read_text(alloc, text.as_bytes())?)
}

#[test]
fn names_stand_for_their_bytes(rt: HostRuntime) -> Result<(), Fail> {
    for (name, byte) in NAMES {
        assert_eq!(rt; byte_named(name.as_bytes()), Some(byte), "{name}");
        let capitals = name.to_ascii_uppercase(rt.alloc())?;
        assert_eq!(rt; byte_named(capitals.as_bytes()), Some(byte), "{name}");
        for (times, sign) in [
            (1, format!(in rt.alloc(); "{{{name}}}")?),
            (200, format!(in rt.alloc(); "{{200 {name}}}")?),
        ] {
            let length = sign.len();
            let wanted = Character {
                byte,
                times,
                length,
            };
            assert_eq!(rt; read_character(sign.as_bytes()), Some(wanted), "{sign}");
        }
        let back = write_text(rt.alloc(), &[byte])?;
        let wanted = format!(in rt.alloc(); "{{{name}}}")?;
        assert!(rt;
            back.is_some_and(|text| text.as_slice() == wanted.as_bytes()),
            "{name}"
        );
    }
    Ok(())
}

#[test]
fn texts_stand_for_bytes(rt: HostRuntime) -> Result<(), Fail> {
    for (text, wanted) in TEXTS {
        let bytes = bytes_of(rt.alloc(), text)?;
        assert!(rt;
            bytes.is_some_and(|bytes| bytes.as_slice() == wanted),
            "{text}"
        );
    }
    for text in NO_TEXTS {
        assert!(rt; bytes_of(rt.alloc(), text)?.is_none(), "{text}");
    }
    Ok(())
}

#[test]
fn the_nearest_name_is_told(rt: HostRuntime) -> Result<(), Fail> {
    for (inside, wanted) in NEAR {
        let name = near_name(rt.alloc(), inside.as_bytes())?.unwrap_or(b"");
        assert_eq!(rt; name, wanted.as_bytes(), "{inside}");
    }
    Ok(())
}

#[test]
fn each_byte_goes_there_and_back(rt: HostRuntime) -> Result<(), Fail> {
    for byte in 0..=255 {
        let text = write_text(rt.alloc(), &[byte])?;
        match text {
            Some(text) => {
                let back = read_text(rt.alloc(), &text)?;
                assert!(rt;
                    back.is_some_and(|bytes| bytes.as_slice() == [byte].as_slice()),
                    "{byte}"
                );
            }
            None => assert!(rt; byte == b'"' || byte == b'\r', "{byte}"),
        }
    }
    Ok(())
}

#[test]
fn generated_texts_go_there_and_back(rt: HostRuntime) -> Result<(), Fail> {
    let mut state: u32 = 1;
    for length in 0..200 {
        let mut bytes = Vec::new(rt.alloc());
        for _ in 0..length {
            state = state.wrapping_mul(1_664_525).wrapping_add(1_013_904_223);
            let byte = (state >> 24) as u8;
            if byte != b'"' && byte != b'\r' {
                bytes.push(byte)?;
            }
        }
        let text = write_text(rt.alloc(), &bytes)?.unwrap_or(Vec::new(rt.alloc()));
        let back = read_text(rt.alloc(), &text)?;
        assert!(rt; back.is_some_and(|back| back.as_slice() == bytes.as_slice()));
    }
    Ok(())
}
