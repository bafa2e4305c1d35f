//! Disks with files of plain bytes.
use std::alloc::{AllocError, Global};
use std::test::Fail;
use tb_machine_disk::{DiskError, File, Name, disk};

// The k-th file's bytes: each is 7 more than the one before, modulo 251.
fn plain_bytes(alloc: Global, k: usize, count: usize) -> Result<Vec<u8>, AllocError> {
    let mut bytes = Vec::new(alloc);
    for i in 0..count {
        bytes.push((i.wrapping_mul(7).wrapping_add(k) % 251) as u8)?;
    }
    Ok(bytes)
}

fn adler32(bytes: &[u8]) -> u32 {
    let mut low = 1u32;
    let mut high = 0u32;
    for byte in bytes {
        low = low.wrapping_add(u32::from(*byte)) % 65521;
        high = high.wrapping_add(low) % 65521;
    }
    high.wrapping_mul(65536).wrapping_add(low)
}

fn name(text: &[u8]) -> Name {
    Name::new(text).unwrap_or(Name { field: [b'?'; 16] })
}

// The checksum of the disk `TEST` with files of 1,000, 5,000 and `size` bytes.
fn checksum(alloc: Global, size: usize) -> Result<Option<u32>, AllocError> {
    let a = plain_bytes(alloc, 1, 1000)?;
    let b = plain_bytes(alloc, 2, 5000)?;
    let c = plain_bytes(alloc, 3, size)?;
    let files = [
        File {
            name: name(b"A"),
            bytes: a.as_slice(),
        },
        File {
            name: name(b"B-1"),
            bytes: b.as_slice(),
        },
        File {
            name: name(b"C"),
            bytes: c.as_slice(),
        },
    ];
    Ok(match disk(alloc, &name(b"TEST"), &files) {
        Ok(image) => Some(adler32(image.as_slice())),
        Err(_) => None,
    })
}

// cc1541 -n test -i 'tb#a02a' -S 1 -f a -w A -f b-1 -w B -f c -w C
#[test]
fn images_are_those_of_cc1541(rt: HostRuntime) -> Result<(), Fail> {
    // The last one fills the disk.
    let rows = [
        (100_000, 1_559_929_378),
        (140_000, 3_390_632_472),
        (640 * 254, 317_456_600),
    ];
    for &(size, wanted) in &rows {
        assert_eq!(rt; checksum(rt.alloc(), size)?, Some(wanted));
    }
    Ok(())
}

// What comes of `count` files of `size` bytes each.
fn outcome(alloc: Global, count: usize, size: usize) -> Result<Option<DiskError>, AllocError> {
    let bytes = plain_bytes(alloc, 0, size)?;
    let file = File {
        name: name(b"A"),
        bytes: bytes.as_slice(),
    };
    let mut files = Vec::new(alloc);
    for _ in 0..count {
        files.push(file)?;
    }
    Ok(disk(alloc, &name(b"TEST"), files.as_slice()).err())
}

#[test]
fn a_disk_holds_664_blocks_and_144_files(rt: HostRuntime) -> Result<(), Fail> {
    let rows = [
        (1, 664 * 254, None),
        (1, 664 * 254 + 1, Some(DiskError::Full)),
        (2, 332 * 254, None),
        (2, 332 * 254 + 1, Some(DiskError::Full)),
        (144, 4 * 254, None),
        (145, 2, Some(DiskError::Full)),
        (0, 0, None),
    ];
    for &(count, size, wanted) in &rows {
        assert_eq!(rt; outcome(rt.alloc(), count, size)?, wanted);
    }
    Ok(())
}

#[test]
fn names_have_1_to_16_signs(rt: HostRuntime) -> Result<(), Fail> {
    let rows: [(&[u8], bool); 7] = [
        (b"", false),
        (b"A", true),
        (b"MAZE 2.0-X", true),
        (b"ABCDEFGHIJKLMNOP", true),
        (b"ABCDEFGHIJKLMNOPQ", false),
        (b"a", false),
        (b"A_B", false),
    ];
    for &(text, wanted) in &rows {
        assert_eq!(rt; Name::new(text).is_some(), wanted);
    }
    Ok(())
}
