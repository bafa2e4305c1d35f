//! Label files: worked rows.
use std::test::Fail;
use tb_assembly_labels::{LabelsError, address_of, place_of, read_labels};

/// Two labels at one address, one with `C:` missing and capital digits, an empty line, and each end of a line.
const FILE: &[u8] = b"al C:c000 .start\nal C005 .Loop\r\n\nal C:c005 .again\ral C:C9FF .text";

/// Addresses, and the places there.
const PLACES: [(u16, &str); 9] = [
    (0xbfff, "none"),
    (0xc000, "start"),
    (0xc004, "start+4"),
    (0xc005, "Loop"),
    (0xc008, "Loop+3"),
    (0xc9fe, "Loop+2553"),
    (0xc9ff, "text"),
    (0xd9fe, "text+4095"),
    (0xd9ff, "none"),
];

/// Names, and their addresses.
const NAMES: [(&str, Option<u16>); 6] = [
    ("start", Some(0xc000)),
    (".LOOP", Some(0xc005)),
    ("again", Some(0xc005)),
    ("star", None),
    ("..start", None),
    ("", None),
];

/// Files with a bad line, and its number.
const BAD: [(&[u8], usize); 9] = [
    (b"RTS", 1),
    (b"al C:c000 .start\nal C:c00 .start\n", 2),
    (b"\n\nal C:c000 start", 3),
    (b"al C:c000 .", 1),
    (b"al C:c000 .a b", 1),
    (b"al C:c00g .a", 1),
    (b"al D:c000 .a", 1),
    (b"AL C:c000 .a", 1),
    (b" ", 1),
];

#[test]
fn places_are_named(rt: HostRuntime) -> Result<(), Fail> {
    let labels = read_labels(rt.alloc(), FILE).expect(&rt, "labels");
    assert_eq!(rt; labels.len(), 4);
    for (address, wanted) in PLACES {
        let place = match place_of(&labels, address) {
            Some(place) => format!(in rt.alloc(); "{place}")?,
            None => format!(in rt.alloc(); "none")?,
        };
        assert_eq!(rt; place.as_str(), wanted);
    }
    Ok(())
}

#[test]
fn names_have_addresses(rt: HostRuntime) -> Result<(), Fail> {
    let labels = read_labels(rt.alloc(), FILE).expect(&rt, "labels");
    for (name, wanted) in NAMES {
        assert_eq!(rt; address_of(&labels, name.as_bytes()), wanted, "{name}");
    }
    Ok(())
}

#[test]
fn bad_lines_are_refused(rt: HostRuntime) -> Result<(), Fail> {
    for (text, wanted) in BAD {
        assert!(rt;
            matches!(read_labels(rt.alloc(), text), Err(LabelsError::Line(line)) if line == wanted)
        );
    }
    Ok(())
}
