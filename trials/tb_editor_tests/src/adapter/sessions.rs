//! Whole sessions with the debug adapter.
use super::support::{answers, frames, served, shown};
use std::test::Fail;
use tb_test_support::FailingReader;

/// A source with a subroutine.
pub const SOURCE: &[u8] =
    b"10 LET A=1\n20 GOSUB 100\n30 PRINT A\n40 END\n100 LET A=A+1\n110 RETURN\n";

/// Messages of a session that goes on and back.
pub const MESSAGES: [&str; 16] = [
    r#"{"seq":1,"type":"request","command":"initialize","arguments":{"adapterID":"tbc"}}"#,
    r#"{"seq":2,"type":"request","command":"launch","arguments":{"program":"/a/t.bas"}}"#,
    r#"{"seq":3,"type":"request","command":"setBreakpoints","arguments":{"source":{"path":"t.bas"},"breakpoints":[{"line":6}]}}"#,
    r#"{"seq":4,"type":"request","command":"configurationDone"}"#,
    r#"{"seq":5,"type":"request","command":"stackTrace","arguments":{"threadId":1}}"#,
    r#"{"seq":6,"type":"request","command":"variables","arguments":{"variablesReference":3}}"#,
    r#"{"seq":7,"type":"request","command":"stepBack"}"#,
    r#"{"seq":8,"type":"request","command":"continue"}"#,
    r#"{"seq":9,"type":"request","command":"next"}"#,
    r#"{"seq":10,"type":"request","command":"next"}"#,
    r#"{"seq":11,"type":"request","command":"stepBack"}"#,
    r#"{"seq":12,"type":"request","command":"evaluate","arguments":{"expression":"A*3"}}"#,
    r#"{"seq":13,"type":"request","command":"readMemory","arguments":{"memoryReference":"0xC000","count":4}}"#,
    r#"{"seq":14,"type":"request","command":"continue"}"#,
    r#"{"seq":15,"type":"request","command":"continue"}"#,
    r#"{"seq":16,"type":"request","command":"disconnect"}"#,
];

/// What is answered: `2` is told once.
const ANSWERS: [&str; 26] = [
    r#"{"body":{"supportsConfigurationDoneRequest":true,"supportsDataBreakpoints":true,"supportsDisassembleRequest":true,"supportsEvaluateForHovers":true,"supportsReadMemoryRequest":true,"supportsStepBack":true,"supportsSteppingGranularity":true,"supportsTerminateRequest":true},"command":"initialize","request_seq":1,"seq":1,"success":true,"type":"response"}"#,
    r#"{"command":"launch","request_seq":2,"seq":2,"success":true,"type":"response"}"#,
    r#"{"event":"initialized","seq":3,"type":"event"}"#,
    r#"{"body":{"breakpoints":[{"id":110,"line":6,"source":{"name":"t.bas","path":"/a/t.bas"},"verified":true}]},"command":"setBreakpoints","request_seq":3,"seq":4,"success":true,"type":"response"}"#,
    r#"{"command":"configurationDone","request_seq":4,"seq":5,"success":true,"type":"response"}"#,
    r#"{"body":{"allThreadsStopped":true,"description":"line 110","hitBreakpointIds":[110],"reason":"breakpoint","threadId":1},"event":"stopped","seq":6,"type":"event"}"#,
    r#"{"body":{"stackFrames":[{"column":1,"id":1,"instructionPointerReference":"0x0CAF","line":6,"name":"110 RETURN","source":{"name":"t.bas","path":"/a/t.bas"}},{"column":1,"id":2,"instructionPointerReference":"0x0C1A","line":2,"name":"20 GOSUB 100","source":{"name":"t.bas","path":"/a/t.bas"}}],"totalFrames":2},"command":"stackTrace","request_seq":5,"seq":7,"success":true,"type":"response"}"#,
    r#"{"body":{"variables":[{"name":"time","value":"3","variablesReference":0},{"name":"status","value":"running","variablesReference":0}]},"command":"variables","request_seq":6,"seq":8,"success":true,"type":"response"}"#,
    r#"{"command":"stepBack","request_seq":7,"seq":9,"success":true,"type":"response"}"#,
    r#"{"body":{"allThreadsStopped":true,"description":"step","reason":"step","threadId":1},"event":"stopped","seq":10,"type":"event"}"#,
    r#"{"body":{"allThreadsContinued":true},"command":"continue","request_seq":8,"seq":11,"success":true,"type":"response"}"#,
    r#"{"body":{"allThreadsStopped":true,"description":"line 110","hitBreakpointIds":[110],"reason":"breakpoint","threadId":1},"event":"stopped","seq":12,"type":"event"}"#,
    r#"{"command":"next","request_seq":9,"seq":13,"success":true,"type":"response"}"#,
    r#"{"body":{"allThreadsStopped":true,"description":"step","reason":"step","threadId":1},"event":"stopped","seq":14,"type":"event"}"#,
    r#"{"command":"next","request_seq":10,"seq":15,"success":true,"type":"response"}"#,
    r#"{"body":{"category":"stdout","output":"2\n"},"event":"output","seq":16,"type":"event"}"#,
    r#"{"body":{"allThreadsStopped":true,"description":"step","reason":"step","threadId":1},"event":"stopped","seq":17,"type":"event"}"#,
    r#"{"command":"stepBack","request_seq":11,"seq":18,"success":true,"type":"response"}"#,
    r#"{"body":{"allThreadsStopped":true,"description":"step","reason":"step","threadId":1},"event":"stopped","seq":19,"type":"event"}"#,
    r#"{"body":{"result":"6","type":"word","variablesReference":0},"command":"evaluate","request_seq":12,"seq":20,"success":true,"type":"response"}"#,
    r#"{"body":{"address":"0xC000","data":"AgAAAA==","unreadableBytes":0},"command":"readMemory","request_seq":13,"seq":21,"success":true,"type":"response"}"#,
    r#"{"body":{"allThreadsContinued":true},"command":"continue","request_seq":14,"seq":22,"success":true,"type":"response"}"#,
    r#"{"body":{"allThreadsStopped":true,"description":"returned","reason":"end","threadId":1},"event":"stopped","seq":23,"type":"event"}"#,
    r#"{"body":{"allThreadsContinued":true},"command":"continue","request_seq":15,"seq":24,"success":true,"type":"response"}"#,
    r#"{"body":{"exitCode":0},"event":"exited","seq":25,"type":"event"}"#,
    r#"{"event":"terminated","seq":26,"type":"event"}"#,
];

/// The last answer.
const LAST: &str =
    r#"{"command":"disconnect","request_seq":16,"seq":27,"success":true,"type":"response"}"#;

#[test]
fn a_session_goes_on_and_back(rt: HostRuntime) -> Result<(), Fail> {
    let alloc = rt.alloc();
    let mut wanted = frames(alloc, &ANSWERS)?;
    wanted.extend_from_slice(frames(alloc, &[LAST])?.as_slice())?;
    let told = answers(alloc, SOURCE, &MESSAGES)?;
    assert_eq!(rt; shown(&told), shown(&wanted));
    Ok(())
}

#[test]
fn a_dialogue_that_is_cut_is_answered_up_to_there(rt: HostRuntime) -> Result<(), Fail> {
    let alloc = rt.alloc();
    let messages = frames(alloc, &MESSAGES)?;
    let whole = answers(alloc, SOURCE, &MESSAGES)?;
    for length in 0..messages.len() {
        if length % 97 != 0 {
            continue;
        }
        let reader = FailingReader::new(&messages.as_slice()[..length], usize::MAX, 4096);
        let (status, told) = served(alloc, SOURCE, reader);
        assert!(rt; status == 0 || status == 3, "{length}");
        assert!(rt; whole.as_slice().starts_with(told.as_slice()), "{length}");
        let reader = FailingReader::new(messages.as_slice(), length, 7);
        let (status, told) = served(alloc, SOURCE, reader);
        assert_eq!(rt; status, 3, "{length}");
        assert!(rt; whole.as_slice().starts_with(told.as_slice()), "{length}");
    }
    Ok(())
}
