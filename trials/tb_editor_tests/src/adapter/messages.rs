//! What is no message, what is passed over, and streams that fail.
use super::sessions::{MESSAGES, SOURCE};
use super::support::{One, answers, frames, served, shown};
use std::test::Fail;
use tb_codegen::TinyBasic;
use tb_dap_adapter::{Usual, serve};
use tb_engine_streams::Tracked;
use tb_test_support::{FailingReader, FailingWriter};
use tb_basic_text::Notation;

/// Contents that are no message, and what is told of them.
const UNREAD: [(&str, &str); 9] = [
    ("{", "no JSON"),
    (
        r#"{"seq":1,"type":"request","command":"\ud800"}"#,
        "no JSON",
    ),
    ("7", "no message"),
    ("{}", "no message"),
    (
        r#"{"seq":-1,"type":"request","command":"threads"}"#,
        "no message",
    ),
    (r#"{"seq":1,"type":"request"}"#, "no message"),
    (r#"{"seq":1,"type":"request","command":7}"#, "no message"),
    (r#"{"seq":1,"command":"threads"}"#, "no message"),
    (
        r#"{"seq":1,"type":"other","command":"threads"}"#,
        "no message",
    ),
];

#[test]
fn what_is_no_message_is_told(rt: HostRuntime) -> Result<(), Fail> {
    let alloc = rt.alloc();
    for (content, why) in UNREAD {
        let event = format!(in alloc;
            "{{\"body\":{{\"category\":\"stderr\",\"output\":\"tbc: {why}\\n\"}},\"event\":\"output\",\"seq\":1,\"type\":\"event\"}}"
        )?;
        let wanted = frames(alloc, &[event.as_str()])?;
        let told = answers(alloc, SOURCE, &[content])?;
        assert_eq!(rt; shown(&told), shown(&wanted), "{content}");
    }
    Ok(())
}

#[test]
fn answers_and_events_are_passed_over(rt: HostRuntime) -> Result<(), Fail> {
    let alloc = rt.alloc();
    let told = answers(
        alloc,
        SOURCE,
        &[
            r#"{"seq":1,"type":"response","request_seq":1,"success":true,"command":"runInTerminal"}"#,
            r#"{"type":"event","event":"other"}"#,
        ],
    )?;
    assert_eq!(rt; shown(&told), "");
    Ok(())
}

/// What is no frame.
const UNFRAMED: [&[u8]; 5] = [
    b"\r\n",
    b"Content-Length: x\r\n\r\n{}",
    b"Content-Length: -2\r\n\r\n{}",
    b"Content-Length: 9\r\n\r\n{}",
    b"Content-Length: 2",
];

#[test]
fn what_is_no_frame_ends_the_dialogue(rt: HostRuntime) -> Result<(), Fail> {
    let alloc = rt.alloc();
    for bytes in UNFRAMED {
        let reader = FailingReader::new(bytes, usize::MAX, 4096);
        let (status, told) = served(alloc, SOURCE, reader);
        assert_eq!(rt; (status, shown(&told)), (3, ""), "{}", shown(bytes));
    }
    Ok(())
}

#[test]
fn a_writer_that_fails_has_a_prefix(rt: HostRuntime) -> Result<(), Fail> {
    let alloc = rt.alloc();
    let messages = frames(alloc, &MESSAGES)?;
    let whole = answers(alloc, SOURCE, &MESSAGES)?;
    for length in 0..whole.len() {
        if length % 61 != 0 {
            continue;
        }
        let mut sources = One { text: SOURCE };
        let mut reader = Tracked::new(FailingReader::new(messages.as_slice(), usize::MAX, 4096));
        let mut writer = Tracked::new(FailingWriter::new(alloc, length, 7));
        let outcome = serve(
            &TinyBasic,
            alloc,
            Usual {
                notation: Notation::Plain,
                clock: None,
            },
            &mut sources,
            &mut reader,
            &mut writer,
        );
        assert_eq!(rt; outcome.status(), 3, "{length}");
        assert_eq!(rt; writer.stream.taken.as_slice(), &whole.as_slice()[..length]);
    }
    Ok(())
}
