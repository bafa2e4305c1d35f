//! Messages of a debug adapter: worked rows.
use serde_json::{Value, json};
use std::alloc::Global;
use std::test::Fail;
use tb_dap_messages::{Asker, Message, Refusal, event, failure, message_of, success};

/// Messages that ask for something, each with the number and the command, and whether there are arguments.
const REQUESTS: [(&str, u64, &str, bool); 4] = [
    (
        r#"{"seq":0,"type":"request","command":"threads"}"#,
        0,
        "threads",
        false,
    ),
    (
        r#"{"seq":18446744073709551615,"type":"request","command":"launch","arguments":{"program":"a.bas"}}"#,
        18_446_744_073_709_551_615,
        "launch",
        true,
    ),
    (
        r#"{"arguments":null,"command":"","type":"request","seq":3}"#,
        3,
        "",
        true,
    ),
    (
        r#"{"seq":7,"type":"request","command":"next","more":[{}],"arguments":7}"#,
        7,
        "next",
        true,
    ),
];

/// Messages that answer or tell something.
const PASSED: [&str; 3] = [
    r#"{"seq":1,"type":"response","request_seq":1,"success":true,"command":"runInTerminal"}"#,
    r#"{"type":"event"}"#,
    r#"{"seq":-1,"type":"response"}"#,
];

/// Values that are no messages.
const NO_MESSAGES: [&str; 10] = [
    "7",
    "[]",
    "{}",
    r#"{"seq":1,"command":"threads"}"#,
    r#"{"seq":1,"type":"Request","command":"threads"}"#,
    r#"{"seq":1,"type":1,"command":"threads"}"#,
    r#"{"type":"request","command":"threads"}"#,
    r#"{"seq":-1,"type":"request","command":"threads"}"#,
    r#"{"seq":1.5,"type":"request","command":"threads"}"#,
    r#"{"seq":1,"type":"request","command":7}"#,
];

fn value_of(alloc: Global, text: &str) -> Result<Value, Fail> {
    Ok(Value::from_str(alloc, text).ok().ok_or("no JSON")?)
}

#[test]
fn what_asks_for_something(rt: HostRuntime) -> Result<(), Fail> {
    for &(text, number, name, has_arguments) in &REQUESTS {
        let value = value_of(rt.alloc(), text)?;
        let Message::Request {
            seq,
            command,
            arguments,
        } = message_of(&value)
        else {
            return Err("no request".into());
        };
        assert_eq!(rt;
            (seq, command, arguments.is_some()),
            (number, name, has_arguments)
        );
    }
    Ok(())
}

#[test]
fn what_is_passed_over_or_is_no_message(rt: HostRuntime) -> Result<(), Fail> {
    for text in &PASSED {
        let value = value_of(rt.alloc(), text)?;
        assert!(rt; matches!(message_of(&value), Message::Passed), "{text}");
    }
    for text in &NO_MESSAGES {
        let value = value_of(rt.alloc(), text)?;
        assert!(rt; matches!(message_of(&value), Message::NoMessage), "{text}");
    }
    Ok(())
}

#[test]
fn what_is_answered_and_told(rt: HostRuntime) -> Result<(), Fail> {
    let alloc = rt.alloc();
    let asker = Asker {
        seq: 12,
        command: "threads",
    };
    let body = json!(in alloc; {"threads": []})?;
    assert_eq!(rt;
        success(alloc, 5, asker, Some(body))?.as_slice(),
        br#"{"body":{"threads":[]},"command":"threads","request_seq":12,"seq":5,"success":true,"type":"response"}"#.as_slice()
    );
    assert_eq!(rt;
        success(alloc, 6, asker, None)?.as_slice(),
        br#"{"command":"threads","request_seq":12,"seq":6,"success":true,"type":"response"}"#.as_slice()
    );
    assert_eq!(rt;
        failure(alloc, 7, asker, Refusal::BadArguments.text(), false)?.as_slice(),
        br#"{"body":{"error":{"format":"bad arguments","id":1,"showUser":false}},"command":"threads","message":"bad arguments","request_seq":12,"seq":7,"success":false,"type":"response"}"#.as_slice()
    );
    let body = json!(in alloc; {"exitCode": 7})?;
    assert_eq!(rt;
        event(alloc, 8, "exited", Some(body))?.as_slice(),
        br#"{"body":{"exitCode":7},"event":"exited","seq":8,"type":"event"}"#.as_slice()
    );
    assert_eq!(rt;
        event(alloc, 9, "initialized", None)?.as_slice(),
        br#"{"event":"initialized","seq":9,"type":"event"}"#.as_slice()
    );
    Ok(())
}
