//! Disks made of PRG files: names, refusals and their order, files that fail, inputs that are cut off.
use std::alloc::{AllocError, Global};
use std::test::Fail;
use tb_machine_disk::{File, disk};
use tb_engine_disk::{DiskFailure, DiskFiles, DiskOutcome, DiskRefusal, Name};
use tb_program_files::disk_file;
use tb_prg::PrgError;
use tb_engine_streams::Done;
use tb_test_support::Shelf;

/// Where the disk's name begins, in bytes.
const TITLE: usize = 357 * 256 + 144;

const TOO_SHORT: DiskFailure = DiskFailure::Refused(DiskRefusal::Prg(PrgError::TooShort));

const RUNS_PAST: DiskFailure = DiskFailure::Refused(DiskRefusal::Prg(PrgError::RunsPast));

const BAD_NAME: DiskFailure = DiskFailure::Refused(DiskRefusal::BadName);

const NAME_TWICE: DiskFailure = DiskFailure::Refused(DiskRefusal::NameTwice);

const FULL: DiskFailure = DiskFailure::Refused(DiskRefusal::Full);

const TEXT: DiskFailure = DiskFailure::Refused(DiskRefusal::Text);

const NOT_RAM: DiskFailure = DiskFailure::Refused(DiskRefusal::NotRam);

/// A PRG file that only returns.
const PRG: &[u8] = &[0x00, 0xc0, 0x60];

/// A PRG file whose last byte would lie after `$FFFF`.
const PAST: &[u8] = &[0xff, 0xff, 0x60, 0x60];

/// A file that is no PRG file.
const SHORT: &[u8] = &[0x00];

// The files with one more.
fn with(
    alloc: Global,
    files: DiskFiles,
    path: &str,
    bytes: &[u8],
) -> Result<DiskFiles, DiskFailure> {
    let name = files.name(alloc, path)?;
    files.add(name, Vec::from_slice(alloc, bytes)?)
}

// What a disk of paths and contents comes to.
fn made(alloc: Global, rows: &[(&str, &[u8])]) -> Result<Vec<u8>, DiskFailure> {
    let mut files = DiskFiles::new(alloc);
    for &(path, bytes) in rows {
        files = with(alloc, files, path, bytes)?;
    }
    files.image(alloc, "test.d64")
}

// The name's field that a path gives, with the `$A0` that fill it up.
fn field(alloc: Global, path: &str) -> Result<[u8; 16], DiskFailure> {
    let name = DiskFiles::new(alloc).name(alloc, path)?;
    Ok(name.field)
}

#[test]
fn files_get_names(rt: HostRuntime) -> Result<(), Fail> {
    let rows: [(&str, Result<&[u8; 16], DiskFailure>); 13] = [
        (
            "maze.prg",
            Ok(b"MAZE\xa0\xa0\xa0\xa0\xa0\xa0\xa0\xa0\xa0\xa0\xa0\xa0"),
        ),
        (
            "maze",
            Ok(b"MAZE\xa0\xa0\xa0\xa0\xa0\xa0\xa0\xa0\xa0\xa0\xa0\xa0"),
        ),
        (
            "a/b.c/Maze_2.PRG",
            Ok(b"MAZE-2\xa0\xa0\xa0\xa0\xa0\xa0\xa0\xa0\xa0\xa0"),
        ),
        (
            "./my game.1.prg",
            Ok(b"MY GAME.1\xa0\xa0\xa0\xa0\xa0\xa0\xa0"),
        ),
        (
            "a.prg.prg",
            Ok(b"A.PRG\xa0\xa0\xa0\xa0\xa0\xa0\xa0\xa0\xa0\xa0\xa0"),
        ),
        (
            "a.pRg",
            Ok(b"A\xa0\xa0\xa0\xa0\xa0\xa0\xa0\xa0\xa0\xa0\xa0\xa0\xa0\xa0\xa0"),
        ),
        ("abcdefghijklmnop.prg", Ok(b"ABCDEFGHIJKLMNOP")),
        ("abcdefghijklmnopq.prg", Err(BAD_NAME)),
        ("maze+.prg", Err(BAD_NAME)),
        ("m\u{e4}ze.prg", Err(BAD_NAME)),
        (".prg", Err(BAD_NAME)),
        ("", Err(BAD_NAME)),
        ("..", Err(BAD_NAME)),
    ];
    for (path, wanted) in &rows {
        assert_eq!(rt; field(rt.alloc(), path), wanted.copied());
    }
    Ok(())
}

// The bytes where the disk's name is.
fn title(alloc: Global, path: &str) -> Result<[u8; 16], DiskFailure> {
    let image = DiskFiles::new(alloc).image(alloc, path)?;
    let mut title = [0; 16];
    for (at, sign) in title.iter_mut().enumerate() {
        *sign = image.get(TITLE + at).copied().unwrap_or(0);
    }
    Ok(title)
}

#[test]
fn disks_get_names(rt: HostRuntime) -> Result<(), Fail> {
    let rows: [(&str, &[u8; 16]); 5] = [
        (
            "out/My_games.D64",
            b"MY-GAMES\xa0\xa0\xa0\xa0\xa0\xa0\xa0\xa0",
        ),
        ("abcdefghijklmnopqrs.d64", b"ABCDEFGHIJKLMNOP"),
        ("abcdefghijklmnop+.d64", b"ABCDEFGHIJKLMNOP"),
        (
            "a+.d64",
            b"TBC\xa0\xa0\xa0\xa0\xa0\xa0\xa0\xa0\xa0\xa0\xa0\xa0\xa0",
        ),
        (
            ".d64",
            b"TBC\xa0\xa0\xa0\xa0\xa0\xa0\xa0\xa0\xa0\xa0\xa0\xa0\xa0",
        ),
    ];
    for &(path, wanted) in &rows {
        assert_eq!(rt; title(rt.alloc(), path), Ok(*wanted));
    }
    Ok(())
}

// How a disk of paths and contents is refused.
fn refusal(alloc: Global, rows: &[(&str, &[u8])]) -> Option<DiskFailure> {
    made(alloc, rows).err()
}

#[test]
fn the_first_file_is_refused_first(rt: HostRuntime) -> Result<(), Fail> {
    let rows: [(&[(&str, &[u8])], Option<DiskFailure>); 20] = [
        (&[("a", PRG), ("b", PRG)], None),
        (&[("a+", PRG)], Some(BAD_NAME)),
        (&[("a", PRG), ("x/A.prg", PRG)], Some(NAME_TWICE)),
        (&[("a", SHORT)], Some(TOO_SHORT)),
        (&[("a", PAST)], Some(RUNS_PAST)),
        (&[("a", b"10 PRINT 1\n")], Some(TEXT)),
        (&[("a", b"LDA #$48\r\n\tRTS~")], Some(TEXT)),
        (&[("a", b"10 PRINT \x7f\n")], None),
        (&[("a", b"\x01\x08 a program")], None),
        (&[("a", b"\xff\x9f\x60")], None),
        (&[("a", b"\xff\x9f\x60\x60")], Some(NOT_RAM)),
        (&[("a", b"\x00\xd0\x60")], Some(NOT_RAM)),
        // Several at once
        (&[("a", PRG), ("a", b"10 END\n")], Some(NAME_TWICE)),
        (&[("a+", SHORT)], Some(BAD_NAME)),
        (&[("a+", PRG), ("a+", PRG)], Some(BAD_NAME)),
        (&[("a", PRG), ("a", PAST)], Some(NAME_TWICE)),
        (&[("a", SHORT), ("a", PAST)], Some(TOO_SHORT)),
        (&[("a", PAST), ("b+", PRG)], Some(RUNS_PAST)),
        (&[("a", PRG), ("b", SHORT), ("a", PRG)], Some(TOO_SHORT)),
        (&[("a", PRG), ("b", PRG), ("a", SHORT)], Some(NAME_TWICE)),
    ];
    for &(files, wanted) in &rows {
        assert_eq!(rt; refusal(rt.alloc(), files), wanted);
    }
    Ok(())
}

// Two files whose names were both looked at before either was taken in.
fn taken_unseen(alloc: Global, first: &str, second: &str) -> Result<DiskFiles, DiskFailure> {
    let files = DiskFiles::new(alloc);
    let names = (files.name(alloc, first)?, files.name(alloc, second)?);
    let files = files.add(names.0, Vec::from_slice(alloc, PRG)?)?;
    files.add(names.1, Vec::from_slice(alloc, PRG)?)
}

// Files are taken in one after another: a name that is taken is refused, whatever was asked before.
#[test]
fn no_name_is_taken_in_twice(rt: HostRuntime) -> Result<(), Fail> {
    let alloc = rt.alloc();
    assert!(rt; taken_unseen(alloc, "a.prg", "b.prg").is_ok());
    assert!(rt; taken_unseen(alloc, "a.prg", "A").err() == Some(NAME_TWICE));
    Ok(())
}

// A PRG file of this many bytes, at the place of a BASIC line.
fn prg(alloc: Global, size: usize) -> Result<Vec<u8>, AllocError> {
    let mut bytes = Vec::from_slice(alloc, &[0x01, 0x08])?;
    bytes.resize(size, 0)?;
    Ok(bytes)
}

// `count` files of `size` bytes each, and a last one.
fn many(
    alloc: Global,
    count: usize,
    size: usize,
    last: (&str, &[u8]),
) -> Result<DiskFiles, DiskFailure> {
    let mut files = DiskFiles::new(alloc);
    let bytes = prg(alloc, size)?;
    for number in 1..count {
        let path = format!(in alloc; "f{number}")?;
        files = with(alloc, files, path.as_str(), bytes.as_slice())?;
    }
    with(alloc, files, last.0, last.1)
}

fn full(alloc: Global, count: usize, size: usize, last: (&str, &[u8])) -> Option<DiskFailure> {
    match many(alloc, count, size, last) {
        Ok(files) => files.image(alloc, "test.d64").err(),
        Err(outcome) => Some(outcome),
    }
}

#[test]
fn a_full_disk_is_refused_last(rt: HostRuntime) -> Result<(), Fail> {
    let eight_blocks = prg(rt.alloc(), 8 * 254)?;
    let nine_blocks = prg(rt.alloc(), 8 * 254 + 1)?;
    let most = prg(rt.alloc(), 63_489)?;
    let rows: [(usize, usize, (&str, &[u8]), Option<DiskFailure>); 9] = [
        (144, 2, ("last", PRG), None),
        (145, 2, ("last", PRG), Some(FULL)),
        (145, 2, ("last", SHORT), Some(TOO_SHORT)),
        (146, 2, ("F1", PRG), Some(NAME_TWICE)),
        // 83 times 8 is 664
        (83, 8 * 254, ("last", eight_blocks.as_slice()), None),
        (83, 8 * 254, ("last", nine_blocks.as_slice()), Some(FULL)),
        (84, 8 * 254, ("last", PAST), Some(RUNS_PAST)),
        // A file up to the end of memory takes 250 blocks
        (2, 63_489, ("last", most.as_slice()), None),
        (3, 63_489, ("last", most.as_slice()), Some(FULL)),
    ];
    for &(count, size, last, wanted) in &rows {
        assert_eq!(rt; full(rt.alloc(), count, size, last), wanted);
    }
    Ok(())
}

// What comes of a disk with the file that a shelf holds.
fn disk_on(alloc: Global, shelf: &mut Shelf<'_>) -> Result<DiskOutcome, AllocError> {
    let mut paths = Vec::new(alloc);
    paths.push(String::from_str(alloc, "a")?)?;
    Ok(disk_file(alloc, shelf, "test.d64", paths.as_slice()))
}

#[test]
fn a_file_that_fails(rt: HostRuntime) -> Result<(), Fail> {
    let alloc = rt.alloc();
    let size = 12;
    for most in 1..5 {
        for until_fault in 0..size + 2 {
            let mut shelf = Shelf::new(alloc, b"\x01\x08 a program", until_fault, 1);
            shelf.most = most;
            let is_whole = until_fault > size;
            let wanted = if is_whole {
                DiskOutcome::Ended(Done)
            } else {
                DiskOutcome::ReadFault
            };
            assert_eq!(rt; disk_on(alloc, &mut shelf)?, wanted);
            assert_eq!(rt; shelf.saved.len(), usize::from(is_whole));
        }
    }
    Ok(())
}

#[test]
fn a_disk_that_is_not_written(rt: HostRuntime) -> Result<(), Fail> {
    let mut shelf = Shelf::new(rt.alloc(), PRG, usize::MAX, 0);
    assert_eq!(rt; disk_on(rt.alloc(), &mut shelf)?, DiskOutcome::WriteFault);
    Ok(())
}

// The image of a disk with one file, by the maker of disks.
fn plain_image(alloc: Global, bytes: &[u8]) -> Option<Vec<u8>> {
    let name = Name::new(b"A")?;
    let title = Name::new(b"TEST")?;
    disk(alloc, &title, &[File { name, bytes }]).ok()
}

// Whether a disk with one file is refused as too short, or the one with these bytes.
fn is_disk_of(alloc: Global, bytes: &[u8]) -> bool {
    match (made(alloc, &[("a", bytes)]), plain_image(alloc, bytes)) {
        (Ok(image), Some(wanted)) => 2 <= bytes.len() && image.as_slice() == wanted.as_slice(),
        (Err(outcome), _) => bytes.len() < 2 && outcome == TOO_SHORT,
        (Ok(_), None) => false,
    }
}

// Cut within the first bytes, and round the ends of the first two blocks.
#[test]
fn each_prefix_of_a_file_is_answered(rt: HostRuntime) -> Result<(), Fail> {
    let file = prg(rt.alloc(), 600)?;
    for first in [0, 252, 506] {
        for cut in first..first + 5 {
            assert!(rt; is_disk_of(rt.alloc(), file.as_slice().get(..cut).unwrap_or(&[])));
        }
    }
    Ok(())
}
