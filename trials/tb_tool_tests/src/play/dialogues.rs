//! An echo, over readers and writers that fail, hand on few bytes at a time, and count.
use std::alloc::Global;
use std::io::{Read, Write};
use std::test::Fail;
use tb_engines::{Outcome, run_prg};
use tb_kernal::Quiet;
use tb_engine_play::{MOST_TYPED, Played, play_file};
use tb_engine_streams::{Tracked, host_form};
use tb_test_support::{CountingWriter, FailingReader, FailingWriter, HoldingWriter, keyboard_of};

/// At `$C000`: sends a `?`, and then takes a byte and sends it, again and again.
const ECHO: [u8; 16] = [
    0x00, 0xc0, 0xa9, 0x3f, 0x20, 0xd2, 0xff, 0x20, 0xcf, 0xff, 0x20, 0xd2, 0xff, 0x4c, 0x05, 0xc0,
];

/// At `$C000`: takes a byte, sends it, and returns.
const ONE_BYTE: [u8; 9] = [0x00, 0xc0, 0x20, 0xcf, 0xff, 0x20, 0xd2, 0xff, 0x60];

/// At `$C000`: takes bytes, and sends nothing.
const SINK: [u8; 8] = [0x00, 0xc0, 0x20, 0xcf, 0xff, 0x4c, 0x00, 0xc0];

const LIMIT: u64 = 1_000_000_000;

/// What is typed to the echo: letters, a 13 before the 10, an empty line, and a last line without its 10.
const TYPED: &[u8] = b"ab\nC1z{\r\n\n\r\nx";

/// What the echo shows of it.
const SHOWN: &[u8] = b"?AB\nC1Z{7B}\n\n\nX\n";

/// What was handed over.
const HANDED: &[u8] = b"AB\rC1Z{\r\r\rX\r";

fn plays<R: Read, W: Write>(
    alloc: Global,
    file: &[u8],
    reader: &mut Tracked<R>,
    writer: &mut Tracked<W>,
) -> (u8, Vec<u8>) {
    let Played { outcome, typed } = play_file(alloc, file, reader, writer, LIMIT);
    (outcome.status(), typed)
}

// The status, and whether this was shown and that was handed over.
fn echoes<R: Read + Drop>(alloc: Global, reader: R, shown: &[u8], handed: &[u8]) -> (u8, bool) {
    let mut writer = Tracked::new(Vec::new(alloc));
    let (status, typed) = plays(alloc, &ECHO, &mut Tracked::new(reader), &mut writer);
    (
        status,
        writer.stream.as_slice() == shown && typed.as_slice() == handed,
    )
}

#[test]
fn lines_are_typed_however_few_bytes_come_at_once(rt: HostRuntime) -> Result<(), Fail> {
    for most in 1..16 {
        let reader = FailingReader::new(TYPED, usize::MAX, most);
        assert_eq!(rt; echoes(rt.alloc(), reader, SHOWN, HANDED), (6, true));
    }
    Ok(())
}

/// What is handed over of each prefix of what is typed.
const HANDED_OF_BEGINNINGS: [&[u8]; 14] = [
    b"",
    b"A\r",
    b"AB\r",
    b"AB\r",
    b"AB\rC\r",
    b"AB\rC1\r",
    b"AB\rC1Z\r",
    b"AB\rC1Z{\r",
    b"AB\rC1Z{\r",
    b"AB\rC1Z{\r",
    b"AB\rC1Z{\r\r",
    b"AB\rC1Z{\r\r\r",
    b"AB\rC1Z{\r\r\r",
    HANDED,
];

// What a run shows whose keyboard text is all there from the start, and its status.
fn run_on(alloc: Global, keys: &[u8], shown: &mut Tracked<Vec<u8>>) -> Result<u8, Fail> {
    let keyboard = keyboard_of(alloc, keys, b"")?;
    let mut file = Tracked::new(ECHO.as_slice());
    Ok(run_prg(alloc, &mut file, shown, keyboard, LIMIT, &mut Quiet).status())
}

// Whether the echo shows of a prefix what a run shows on the keys that are handed over of it.
fn is_one_run(alloc: Global, beginning: &[u8], handed: &[u8]) -> Result<bool, Fail> {
    let mut shown = Tracked::new(Vec::new(alloc));
    let status = run_on(alloc, handed, &mut shown)?;
    let echo = host_form(alloc, handed)?;
    let is_echo = shown.stream.len().checked_sub(1) == Some(echo.len())
        && shown.stream.starts_with(b"?")
        && shown.stream.ends_with(&echo);
    Ok(is_echo && status == 6 && echoes(alloc, beginning, &shown.stream, handed) == (6, true))
}

#[test]
fn each_beginning_of_a_dialogue_is_one_run(rt: HostRuntime) -> Result<(), Fail> {
    for (length, handed) in HANDED_OF_BEGINNINGS.iter().enumerate() {
        let beginning = &TYPED[..length.min(TYPED.len())];
        assert!(rt; is_one_run(rt.alloc(), beginning, handed)?, "{length}");
    }
    Ok(())
}

#[test]
fn nothing_typed_is_a_wait(rt: HostRuntime) -> Result<(), Fail> {
    assert_eq!(rt; echoes(rt.alloc(), b"".as_slice(), b"?", b""), (6, true));
    Ok(())
}

#[test]
fn only_the_lines_that_are_wanted_are_taken(rt: HostRuntime) -> Result<(), Fail> {
    let mut reader = Tracked::new(b"q\nrest".as_slice());
    let mut writer = Tracked::new(Vec::new(rt.alloc()));
    let (status, typed) = plays(rt.alloc(), &ONE_BYTE, &mut reader, &mut writer);
    assert_eq!(rt; status, 0);
    assert_eq!(rt; typed.as_slice(), b"Q\r".as_slice());
    assert_eq!(rt; writer.stream.as_slice(), b"Q".as_slice());
    assert_eq!(rt; reader.stream, b"rest".as_slice());
    Ok(())
}

// What is shown if the reader fails after this many bytes: all up to the wait, and nothing of the line.
#[test]
fn a_reader_that_fails(rt: HostRuntime) -> Result<(), Fail> {
    for until_fault in 0..=TYPED.len() {
        let reader = FailingReader::new(TYPED, until_fault, 3);
        let mut writer = Tracked::new(Vec::new(rt.alloc()));
        let (status, _) = plays(rt.alloc(), &ECHO, &mut Tracked::new(reader), &mut writer);
        let lines = TYPED[..until_fault]
            .iter()
            .filter(|byte| **byte == b'\n')
            .count();
        let shown = writer.stream.iter().filter(|byte| **byte == b'\n').count();
        assert_eq!(rt; (status, shown), (3, lines));
        assert!(rt; SHOWN.starts_with(writer.stream.as_slice()));
    }
    Ok(())
}

#[test]
fn a_writer_that_fails(rt: HostRuntime) -> Result<(), Fail> {
    for until_fault in 0..SHOWN.len() {
        let writer = FailingWriter::new(rt.alloc(), until_fault, 3);
        let mut writer = Tracked::new(writer);
        let (status, _) = plays(rt.alloc(), &ECHO, &mut Tracked::new(TYPED), &mut writer);
        assert_eq!(rt; status, 3);
        assert_eq!(rt; writer.stream.taken.as_slice(), &SHOWN[..until_fault]);
    }
    Ok(())
}

#[test]
fn each_answer_is_flushed_once(rt: HostRuntime) -> Result<(), Fail> {
    let mut writer = Tracked::new(CountingWriter::new(rt.alloc()));
    let (status, _) = plays(rt.alloc(), &ECHO, &mut Tracked::new(TYPED), &mut writer);
    assert_eq!(rt; status, 6);
    assert_eq!(rt;
        writer.stream.flushed_at.as_slice(),
        [1, 4, 12, 13, 14, 16].as_slice()
    );
    Ok(())
}

// The status if a line of this many bytes is typed, with its end.
fn status_of_line(alloc: Global, length: usize, end: &[u8]) -> Result<u8, Fail> {
    let mut line = Vec::from_elem(alloc, b'A', length)?;
    line.extend_from_slice(end)?;
    let mut writer = Tracked::new(Vec::new(alloc));
    let (status, _) = plays(
        alloc,
        &ONE_BYTE,
        &mut Tracked::new(line.as_slice()),
        &mut writer,
    );
    Ok(status)
}

#[test]
fn long_lines(rt: HostRuntime) -> Result<(), Fail> {
    for length in [255, 256] {
        assert_eq!(rt; status_of_line(rt.alloc(), length, b"\n")?, 0);
        assert_eq!(rt; status_of_line(rt.alloc(), length, b"\r\n")?, 0);
    }
    Ok(())
}

// The status, and how many bytes were handed over, if a first line of `A` has `first` bytes, and then `empty` empty
// lines follow.
fn sinks(alloc: Global, first: usize, empty: usize) -> Result<(u8, usize), Fail> {
    let mut lines = Vec::from_elem(alloc, b'A', first)?;
    for _ in 0..=empty {
        lines.push(b'\n')?;
    }
    let mut reader = Tracked::new(lines.as_slice());
    let mut writer = Tracked::new(Vec::new(alloc));
    let (status, typed) = plays(alloc, &SINK, &mut reader, &mut writer);
    Ok((status, typed.len()))
}

#[test]
fn so_much_may_be_typed_in_a_line(rt: HostRuntime) -> Result<(), Fail> {
    assert_eq!(rt; sinks(rt.alloc(), MOST_TYPED - 1, 0)?, (6, MOST_TYPED));
    assert_eq!(rt; sinks(rt.alloc(), MOST_TYPED, 0)?, (3, 0));
    Ok(())
}

#[test]
fn so_much_may_be_typed_in_all(rt: HostRuntime) -> Result<(), Fail> {
    assert_eq!(rt; sinks(rt.alloc(), MOST_TYPED - 3, 2)?, (6, MOST_TYPED));
    assert_eq!(rt; sinks(rt.alloc(), MOST_TYPED - 3, 3)?, (3, MOST_TYPED));
    Ok(())
}

#[test]
fn a_flush_that_fails_ends_it(rt: HostRuntime) -> Result<(), Fail> {
    let mut reader = Tracked::new(TYPED);
    let mut writer = Tracked::new(HoldingWriter::new(rt.alloc(), true));
    let (status, typed) = plays(rt.alloc(), &ECHO, &mut reader, &mut writer);
    assert_eq!(rt; (status, typed.len()), (3, 0));
    assert_eq!(rt; reader.stream, TYPED);
    Ok(())
}

#[test]
fn what_is_no_program_is_refused(rt: HostRuntime) -> Result<(), Fail> {
    let mut reader = Tracked::new(TYPED);
    let played = play_file(
        rt.alloc(),
        b"\x01",
        &mut reader,
        &mut Tracked::new(Vec::new(rt.alloc())),
        LIMIT,
    );
    assert!(rt; matches!(played.outcome, Outcome::Refused(_)));
    assert_eq!(rt; reader.stream, TYPED);
    Ok(())
}
