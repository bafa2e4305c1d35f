//! Arguments of a wrong form: they are refused, and nothing changes.
use super::sessions::SOURCE;
use super::support::{answers, shown};
use std::test::Fail;

const INITIALIZE: &str = r#"{"seq":1,"type":"request","command":"initialize"}"#;

const LAUNCH: &str =
    r#"{"seq":2,"type":"request","command":"launch","arguments":{"program":"/a/t.bas","stopOnEntry":true}}"#;

const START: &str = r#"{"seq":3,"type":"request","command":"configurationDone"}"#;

const TIME: &str =
    r#"{"seq":8,"type":"request","command":"variables","arguments":{"variablesReference":3}}"#;

const RUN: &str = r#"{"seq":9,"type":"request","command":"continue"}"#;

/// Requests whose arguments have not the form that they ask for.
const WRONG: [(&str, &str); 30] = [
    ("setBreakpoints", r#"{}"#),
    (
        "setBreakpoints",
        r#"{"source":{"path":7},"breakpoints":[{"line":2}]}"#,
    ),
    ("setBreakpoints", r#"{"source":{"path":"t.bas"}}"#),
    (
        "setBreakpoints",
        r#"{"source":{"path":"t.bas"},"breakpoints":[{"line":2},{}]}"#,
    ),
    (
        "setBreakpoints",
        r#"{"source":{"path":"t.bas"},"breakpoints":[{"line":-2}]}"#,
    ),
    (
        "setBreakpoints",
        r#"{"source":{"path":"t.bas"},"breakpoints":{"line":2}}"#,
    ),
    ("setDataBreakpoints", r#"{}"#),
    ("setDataBreakpoints", r#"{"breakpoints":"A"}"#),
    ("dataBreakpointInfo", r#"{}"#),
    (
        "dataBreakpointInfo",
        r#"{"name":"A","variablesReference":"1"}"#,
    ),
    ("stackTrace", r#"{"startFrame":-1}"#),
    ("stackTrace", r#"{"levels":"1"}"#),
    ("variables", r#"{}"#),
    ("variables", r#"{"variablesReference":4}"#),
    ("variables", r#"{"variablesReference":-1}"#),
    ("evaluate", r#"{}"#),
    ("evaluate", r#"{"expression":7}"#),
    ("evaluate", r#"{"expression":"A","context":7}"#),
    ("readMemory", r#"{"memoryReference":"0xC000"}"#),
    ("readMemory", r#"{"memoryReference":"C000","count":1}"#),
    ("readMemory", r#"{"memoryReference":"0x0C000","count":1}"#),
    ("readMemory", r#"{"memoryReference":"0xC000","count":-1}"#),
    (
        "readMemory",
        r#"{"memoryReference":"0xC000","offset":"0","count":1}"#,
    ),
    ("disassemble", r#"{"memoryReference":"0x0C00"}"#),
    (
        "disassemble",
        r#"{"memoryReference":"0x0C00","instructionCount":65537}"#,
    ),
    (
        "disassemble",
        r#"{"memoryReference":"0x0C00","instructionOffset":1.5,"instructionCount":1}"#,
    ),
    ("disassemble", r#"{"instructionCount":1}"#),
    ("next", r#"{"granularity":1}"#),
    ("continue", r#"{"granularity":{}}"#),
    ("stepBack", r#"{"granularity":[]}"#),
];

#[test]
fn wrong_arguments_change_nothing(rt: HostRuntime) -> Result<(), Fail> {
    let alloc = rt.alloc();
    for (command, arguments) in WRONG {
        let wrong = format!(in alloc;
            "{{\"seq\":7,\"type\":\"request\",\"command\":\"{command}\",\"arguments\":{arguments}}}"
        )?;
        let told = answers(
            alloc,
            SOURCE,
            &[INITIALIZE, LAUNCH, START, wrong.as_str(), TIME, RUN],
        )?;
        let told = shown(&told);
        assert!(rt;
            told.contains("\"message\":\"bad arguments\",\"request_seq\":7,"),
            "{command} {arguments}"
        );
        assert!(rt;
            told.contains("{\"name\":\"time\",\"value\":\"0\",\"variablesReference\":0}"),
            "{command} {arguments}"
        );
        assert!(rt; told.contains("\"description\":\"returned\",\"reason\":\"end\""));
    }
    Ok(())
}

/// What an adapter that is new doesn't understand.
const UNLIKE: [&str; 4] = [
    r#"{"linesStartAt1":false}"#,
    r#"{"columnsStartAt1":false}"#,
    r#"{"pathFormat":"uri"}"#,
    r#"{"linesStartAt1":"yes"}"#,
];

#[test]
fn another_client_is_not_understood(rt: HostRuntime) -> Result<(), Fail> {
    let alloc = rt.alloc();
    for arguments in UNLIKE {
        let unlike = format!(in alloc;
            "{{\"seq\":5,\"type\":\"request\",\"command\":\"initialize\",\"arguments\":{arguments}}}"
        )?;
        let told = answers(
            alloc,
            SOURCE,
            &[unlike.as_str(), LAUNCH, INITIALIZE, LAUNCH],
        )?;
        let told = shown(&told);
        assert!(rt;
            told.contains("\"message\":\"bad arguments\",\"request_seq\":5,\"seq\":1,"),
            "{arguments}"
        );
        assert!(rt; told.contains("\"message\":\"not initialized\",\"request_seq\":2,\"seq\":2,"));
        assert!(rt;
            told.contains("\"command\":\"launch\",\"request_seq\":2,\"seq\":4,\"success\":true,")
        );
    }
    Ok(())
}

/// Where the second breakpoint takes the place of the first.
const BREAKPOINTS: [&str; 2] = [
    r#"{"seq":4,"type":"request","command":"setBreakpoints","arguments":{"source":{"path":"t.bas"},"breakpoints":[{"line":2}]}}"#,
    r#"{"seq":5,"type":"request","command":"setBreakpoints","arguments":{"source":{"path":"t.bas"},"breakpoints":[{"line":3}]}}"#,
];

#[test]
fn breakpoints_that_are_replaced_stop_nothing(rt: HostRuntime) -> Result<(), Fail> {
    let alloc = rt.alloc();
    let told = answers(
        alloc,
        SOURCE,
        &[
            INITIALIZE,
            LAUNCH,
            BREAKPOINTS[0],
            BREAKPOINTS[1],
            START,
            RUN,
            RUN,
        ],
    )?;
    let told = shown(&told);
    assert!(rt; !told.contains("\"hitBreakpointIds\":[20]"));
    assert!(rt; told.contains("\"hitBreakpointIds\":[30]"));
    assert!(rt; told.contains("\"description\":\"returned\",\"reason\":\"end\""));
    Ok(())
}
