//! An echo on the screen.
use std::alloc::Global;
use std::io::{Read, Write};
use std::test::Fail;
use tb_engines::Outcome;
use tb_engine_play::Played;
use tb_machine_screen::Screen;
use tb_engine_screen::play_file_on_screen;
use tb_engine_streams::Tracked;
use tb_machine_screen::{closing, frame};
use tb_test_support::{CountingWriter, FailingReader, FailingWriter};

/// At `$C000`: sends a `?`, and then takes a byte and sends it, again and again.
const ECHO: [u8; 16] = [
    0x00, 0xc0, 0xa9, 0x3f, 0x20, 0xd2, 0xff, 0x20, 0xcf, 0xff, 0x20, 0xd2, 0xff, 0x4c, 0x05, 0xc0,
];

/// At `$C000`: clears the screen, sends a red `A`, and returns.
const RED: [u8; 18] = [
    0x00, 0xc0, 0xa9, 0x93, 0x20, 0xd2, 0xff, 0xa9, 0x1c, 0x20, 0xd2, 0xff, 0xa9, 0x41, 0x20, 0xd2,
    0xff, 0x60,
];

const LIMIT: u64 = 1_000_000;

/// What is typed to the echo.
const TYPED: &[u8] = b"ab\nC1\r\n\nx";

/// What the echo sends before each wait, and what is typed there, without its return.
static TURNS: [(&[u8], &[u8]); 5] = [
    (b"?", b"AB"),
    (b"AB\r", b"C1"),
    (b"C1\r", b""),
    (b"\r", b"X"),
    (b"X\r", b""),
];

/// What was handed over.
const HANDED: &[u8] = b"AB\rC1\r\rX\r";

fn plays<R: Read, W: Write>(
    alloc: Global,
    file: &[u8],
    reader: &mut Tracked<R>,
    writer: &mut Tracked<W>,
) -> (u8, Vec<u8>) {
    let Played { outcome, typed } = play_file_on_screen(alloc, file, reader, writer, LIMIT);
    (outcome.status(), typed)
}

// The first turns.
fn first(turns: usize) -> &'static [(&'static [u8], &'static [u8])] {
    TURNS.get(..turns).unwrap_or(&TURNS)
}

// The frames of these turns, and then the text that leaves the terminal.
fn frames(alloc: Global, turns: &[(&[u8], &[u8])]) -> Result<Vec<u8>, Fail> {
    let mut screen = Screen::new();
    let mut text = Vec::new(alloc);
    for (sent, typed) in turns {
        screen.print_all(sent);
        text.extend_from_slice(frame(alloc, &screen)?.as_bytes())?;
        screen.print_all(typed);
    }
    text.extend_from_slice(closing(alloc)?.as_bytes())?;
    Ok(text)
}

#[test]
fn each_wait_has_its_frame(rt: HostRuntime) -> Result<(), Fail> {
    let wanted = frames(rt.alloc(), &TURNS)?;
    for most in 1..8 {
        let reader = FailingReader::new(TYPED, usize::MAX, most);
        let mut writer = Tracked::new(Vec::new(rt.alloc()));
        let (status, typed) = plays(rt.alloc(), &ECHO, &mut Tracked::new(reader), &mut writer);
        assert_eq!(rt; status, 6);
        assert_eq!(rt; typed.as_slice(), HANDED);
        assert_eq!(rt; writer.stream.as_slice(), wanted.as_slice());
    }
    Ok(())
}

#[test]
fn a_program_that_returns_has_one_frame(rt: HostRuntime) -> Result<(), Fail> {
    let mut reader = Tracked::new(TYPED);
    let mut writer = Tracked::new(Vec::new(rt.alloc()));
    let (status, _) = plays(rt.alloc(), &RED, &mut reader, &mut writer);
    let wanted = frames(rt.alloc(), &[(b"\x93\x1cA", b"")])?;
    assert_eq!(rt; status, 0);
    assert_eq!(rt; writer.stream.as_slice(), wanted.as_slice());
    assert_eq!(rt; reader.stream, TYPED);
    Ok(())
}

// If the reader fails after this many bytes, the frame of the wait is there, and the terminal is left.
#[test]
fn a_reader_that_fails(rt: HostRuntime) -> Result<(), Fail> {
    for until_fault in 0..=TYPED.len() {
        let reader = FailingReader::new(TYPED, until_fault, 3);
        let mut writer = Tracked::new(Vec::new(rt.alloc()));
        let (status, _) = plays(rt.alloc(), &ECHO, &mut Tracked::new(reader), &mut writer);
        let lines = TYPED[..until_fault]
            .iter()
            .filter(|byte| **byte == b'\n')
            .count();
        let wanted = frames(rt.alloc(), first(lines + 1))?;
        assert_eq!(rt; status, 3);
        assert_eq!(rt; writer.stream.as_slice(), wanted.as_slice());
    }
    Ok(())
}

#[test]
fn a_writer_that_fails(rt: HostRuntime) -> Result<(), Fail> {
    let wanted = frames(rt.alloc(), first(1))?;
    for until_fault in [0, 1, 500, wanted.len().saturating_sub(1)] {
        let writer = FailingWriter::new(rt.alloc(), until_fault, 3);
        let mut writer = Tracked::new(writer);
        let (status, _) = plays(
            rt.alloc(),
            &ECHO,
            &mut Tracked::new(b"".as_slice()),
            &mut writer,
        );
        assert_eq!(rt; status, 3);
        let taken = writer.stream.taken.as_slice();
        assert_eq!(rt; taken.len(), until_fault);
        assert!(rt; wanted.as_slice().starts_with(taken));
    }
    Ok(())
}

#[test]
fn each_frame_is_flushed_once(rt: HostRuntime) -> Result<(), Fail> {
    let mut writer = Tracked::new(CountingWriter::new(rt.alloc()));
    let (status, _) = plays(rt.alloc(), &ECHO, &mut Tracked::new(TYPED), &mut writer);
    let mut wanted = Vec::new(rt.alloc());
    let leave = closing(rt.alloc())?.len();
    for turns in 1..=TURNS.len() {
        wanted.push(
            frames(rt.alloc(), first(turns))?
                .len()
                .saturating_sub(leave),
        )?;
    }
    wanted.push(frames(rt.alloc(), &TURNS)?.len())?;
    assert_eq!(rt; status, 6);
    assert_eq!(rt; writer.stream.flushed_at.as_slice(), wanted.as_slice());
    Ok(())
}

#[test]
fn what_is_no_program_shows_nothing(rt: HostRuntime) -> Result<(), Fail> {
    let mut reader = Tracked::new(TYPED);
    let mut writer = Tracked::new(Vec::new(rt.alloc()));
    let played = play_file_on_screen(rt.alloc(), b"\x01", &mut reader, &mut writer, LIMIT);
    assert!(rt; matches!(played.outcome, Outcome::Refused(_)));
    assert_eq!(rt; reader.stream, TYPED);
    assert_eq!(rt; writer.stream.as_slice(), b"".as_slice());
    Ok(())
}
