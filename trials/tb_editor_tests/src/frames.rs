//! Frames, over readers that hand on a few bytes, fail, or end early.
use std::alloc::Global;
use std::test::Fail;
use tb_editor_frames::{Frame, FrameError, MOST_CONTENT, WriteError, read_frame, write_frame};
use tb_engine_streams::Tracked;
use tb_test_support::{FailingReader, FailingWriter, HoldingWriter};

/// Frames with the content `{}`, and a byte after each.
const GOOD: [&[u8]; 9] = [
    b"Content-Length: 2\r\n\r\n{}!",
    b"Content-Length: 2\n\n{}!",
    b"content-length:2\r\n\r\n{}!",
    b"CONTENT-LENGTH:    002\n\r\n{}!",
    b"Content-Type: application/vscode-jsonrpc; charset=utf-8\r\nContent-Length: 2\r\n\r\n{}!",
    b"Content-Length: 2\r\nContent-Type: utf-8\r\n\r\n{}!",
    b"Content-Length: 77\r\nContent-Length: 2\r\n\r\n{}!",
    b"Content-Length: 000000000000000002\r\n\r\n{}!",
    b"1\n2\n3\n4\n5\n6\n7\n8\n9\n10\n11\n12\n13\n14\nContent-Length: 2\r\n\r\n{}!",
];

/// What begins no frame.
const BAD: [&[u8]; 15] = [
    b"\r\n\r\n{}",
    b"Content-Type: utf-8\r\n\r\n{}",
    b"Content-Length: x\r\n\r\n{}",
    b"Content-Length: \r\n\r\n{}",
    b"Content-Length: 2 \r\n\r\n{}",
    b"Content-Length: -2\r\n\r\n{}",
    b"Content-Length: 0000000000000000002\r\n\r\n{}",
    b"Content-Length: 3\r\nContent-Length: x\r\n\r\n{}",
    b"Content-Length : 2\r\n\r\n{}",
    b"1\n2\n3\n4\n5\n6\n7\n8\n9\n10\n11\n12\n13\n14\n15\nContent-Length: 2\r\n\r\n{}",
    b"Content-Length: 2",
    b"Content-Length: 2\r\n",
    b"Content-Length: 0\r\n\r",
    b"Content-Length: 2\r\n\r\n{",
    b"{",
];

/// What came of a read.
#[derive(Clone, Copy, Debug, PartialEq, Eq)]
enum Came {
    Braces,
    Another,
    TooLong,
    End,
    Bad,
    Fault,
    NoMemory,
}

fn kind_of(frame: &Result<Option<Frame>, FrameError>) -> Came {
    match frame {
        Ok(Some(Frame::Content(content))) if content.as_slice() == b"{}".as_slice() => Came::Braces,
        Ok(Some(Frame::Content(_))) => Came::Another,
        Ok(Some(Frame::TooLong(_))) => Came::TooLong,
        Ok(None) => Came::End,
        Err(FrameError::Bad) => Came::Bad,
        Err(FrameError::Fault) => Came::Fault,
        Err(FrameError::NoMemory) => Came::NoMemory,
    }
}

// What comes of one read, and how many bytes are left, of a reader that fails after some bytes and gives a few at once.
fn read_once(alloc: Global, bytes: &[u8], until_fault: usize, most: usize) -> (Came, usize) {
    let mut reader = Tracked::new(FailingReader::new(bytes, until_fault, most));
    let found = kind_of(&read_frame(alloc, &mut reader));
    (found, reader.stream.rest.len())
}

#[test]
fn a_frame_is_taken_and_no_byte_after_it(rt: HostRuntime) -> Result<(), Fail> {
    for bytes in GOOD {
        for most in [1, 2, 3, 5, 4096] {
            assert_eq!(rt;
                read_once(rt.alloc(), bytes, usize::MAX, most),
                (Came::Braces, 1),
                "{bytes:?}"
            );
        }
    }
    Ok(())
}

#[test]
fn what_is_no_frame_is_refused(rt: HostRuntime) -> Result<(), Fail> {
    for bytes in BAD {
        for most in [1, 3, 4096] {
            assert_eq!(rt;
                read_once(rt.alloc(), bytes, usize::MAX, most).0,
                Came::Bad,
                "{bytes:?}"
            );
        }
    }
    assert_eq!(rt; read_once(rt.alloc(), b"", usize::MAX, 1), (Came::End, 0));
    Ok(())
}

#[test]
fn each_cut_of_a_frame_is_bad(rt: HostRuntime) -> Result<(), Fail> {
    let whole = b"Content-Length: 2\r\n\r\n{}";
    for length in 1..whole.len() {
        assert_eq!(rt;
            read_once(rt.alloc(), &whole[..length], usize::MAX, 7).0,
            Came::Bad,
            "{length}"
        );
        assert_eq!(rt;
            read_once(rt.alloc(), whole, length, 7).0,
            Came::Fault,
            "{length}"
        );
    }
    Ok(())
}

#[test]
fn a_line_may_have_256_bytes(rt: HostRuntime) -> Result<(), Fail> {
    for (length, wanted) in [(255, Came::Braces), (256, Came::Braces), (257, Came::Bad)] {
        let mut bytes = vec![in rt.alloc(); b'x'; length]?;
        bytes.extend_from_slice(b"\nContent-Length: 2\n\n{}")?;
        assert_eq!(rt;
            read_once(rt.alloc(), bytes.as_slice(), usize::MAX, 4096).0,
            wanted
        );
    }
    Ok(())
}

#[test]
fn a_content_that_is_too_long_is_passed_over(rt: HostRuntime) -> Result<(), Fail> {
    for (length, wanted) in [
        (MOST_CONTENT, Came::Another),
        (MOST_CONTENT + 1, Came::TooLong),
    ] {
        let mut bytes = Vec::from_slice(
            rt.alloc(),
            format!(in rt.alloc(); "Content-Length: {length}\n\n")?.as_bytes(),
        )?;
        let size = bytes.len();
        bytes.resize(size + length, b' ')?;
        bytes.push(b'!')?;
        assert_eq!(rt;
            read_once(rt.alloc(), bytes.as_slice(), usize::MAX, 65_536),
            (wanted, 1)
        );
    }
    Ok(())
}

#[test]
fn a_frame_is_written_whole_and_flushed(rt: HostRuntime) -> Result<(), Fail> {
    let wanted = b"Content-Length: 2\r\n\r\n{}";
    let alloc = rt.alloc();
    let mut holding = Tracked::new(HoldingWriter::new(alloc, false));
    assert_eq!(rt; write_frame(alloc, &mut holding, b"{}"), Ok(()));
    assert_eq!(rt; holding.stream.taken.as_slice(), wanted.as_slice());
    assert_eq!(rt; holding.stream.handed_on, wanted.len());
    for length in 0..wanted.len() {
        let mut writer = Tracked::new(FailingWriter::new(alloc, length, 3));
        assert_eq!(rt;
            write_frame(alloc, &mut writer, b"{}"),
            Err(WriteError::Fault)
        );
        assert_eq!(rt; writer.stream.taken.as_slice(), &wanted[..length]);
    }
    Ok(())
}
