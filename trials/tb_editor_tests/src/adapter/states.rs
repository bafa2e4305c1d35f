//! Requests in each state of an adapter's life, and what they are refused for.
use super::sessions::SOURCE;
use super::support::{answered, answers, frames, shown};
use std::alloc::Global;
use std::test::Fail;

const INITIALIZE: &str = r#"{"seq":1,"type":"request","command":"initialize"}"#;

const LAUNCH: &str =
    r#"{"seq":2,"type":"request","command":"launch","arguments":{"program":"/a/t.bas"}}"#;

const START: &str = r#"{"seq":3,"type":"request","command":"configurationDone"}"#;

const TERMINATE: &str = r#"{"seq":4,"type":"request","command":"terminate"}"#;

/// A command, and what it is refused for when the adapter is new, initialized, launched, started and terminated; nothing
/// where it is done.
const STATES: [(&str, [&str; 5]); 24] = [
    (
        "initialize",
        [
            "",
            "initialized already",
            "initialized already",
            "initialized already",
            "initialized already",
        ],
    ),
    (
        "launch",
        [
            "not initialized",
            "bad arguments",
            "launched already",
            "launched already",
            "launched already",
        ],
    ),
    (
        "configurationDone",
        [
            "not initialized",
            "not launched",
            "",
            "started already",
            "started already",
        ],
    ),
    (
        "next",
        [
            "not initialized",
            "not launched",
            "not started",
            "",
            "terminated",
        ],
    ),
    (
        "reverseContinue",
        [
            "not initialized",
            "not launched",
            "not started",
            "",
            "terminated",
        ],
    ),
    ("threads", ["not initialized", "not launched", "", "", ""]),
    (
        "stackTrace",
        ["not initialized", "not launched", "", "", ""],
    ),
    (
        "setBreakpoints",
        [
            "not initialized",
            "not launched",
            "bad arguments",
            "bad arguments",
            "bad arguments",
        ],
    ),
    (
        "variables",
        [
            "not initialized",
            "not launched",
            "bad arguments",
            "bad arguments",
            "bad arguments",
        ],
    ),
    (
        "setVariable",
        [
            "not initialized",
            "not launched",
            "a run can't be changed: type other keys, or launch with another seed",
            "a run can't be changed: type other keys, or launch with another seed",
            "a run can't be changed: type other keys, or launch with another seed",
        ],
    ),
    (
        "stepInTargets",
        [
            "unknown command",
            "unknown command",
            "unknown command",
            "unknown command",
            "unknown command",
        ],
    ),
    (
        "continue",
        [
            "not initialized",
            "not launched",
            "not started",
            "",
            "terminated",
        ],
    ),
    (
        "stepIn",
        [
            "not initialized",
            "not launched",
            "not started",
            "",
            "terminated",
        ],
    ),
    (
        "stepOut",
        [
            "not initialized",
            "not launched",
            "not started",
            "",
            "terminated",
        ],
    ),
    (
        "stepBack",
        [
            "not initialized",
            "not launched",
            "not started",
            "",
            "terminated",
        ],
    ),
    ("pause", ["not initialized", "not launched", "", "", ""]),
    ("scopes", ["not initialized", "not launched", "", "", ""]),
    (
        "setExceptionBreakpoints",
        ["not initialized", "not launched", "", "", ""],
    ),
    ("terminate", ["not initialized", "not launched", "", "", ""]),
    (
        "evaluate",
        [
            "not initialized",
            "not launched",
            "bad arguments",
            "bad arguments",
            "bad arguments",
        ],
    ),
    (
        "readMemory",
        [
            "not initialized",
            "not launched",
            "bad arguments",
            "bad arguments",
            "bad arguments",
        ],
    ),
    (
        "disassemble",
        [
            "not initialized",
            "not launched",
            "bad arguments",
            "bad arguments",
            "bad arguments",
        ],
    ),
    (
        "writeMemory",
        [
            "not initialized",
            "not launched",
            "a run can't be changed: type other keys, or launch with another seed",
            "a run can't be changed: type other keys, or launch with another seed",
            "a run can't be changed: type other keys, or launch with another seed",
        ],
    ),
    ("disconnect", ["", "", "", "", ""]),
];

// Whether a request that is asked after `count` messages is refused so, or done where nothing is said.
fn is_refused(alloc: Global, count: usize, command: &str, why: &str) -> Result<bool, Fail> {
    let request = format!(in alloc;
        "{{\"seq\":9,\"type\":\"request\",\"command\":\"{command}\"}}"
    )?;
    let mut asked = match count {
        0 => Vec::new(alloc),
        1 => frames(alloc, &[INITIALIZE])?,
        2 => frames(alloc, &[INITIALIZE, LAUNCH])?,
        3 => frames(alloc, &[INITIALIZE, LAUNCH, START])?,
        _ => frames(alloc, &[INITIALIZE, LAUNCH, START, TERMINATE])?,
    };
    asked.extend_from_slice(frames(alloc, &[request.as_str()])?.as_slice())?;
    let told = answered(alloc, SOURCE, asked.as_slice())?;
    let wanted = if why.is_empty() {
        String::from_str(alloc, "\"request_seq\":9,\"seq\":")?
    } else {
        format!(in alloc; "\"message\":\"{why}\",\"request_seq\":9,")?
    };
    let done = why.is_empty() == !shown(&told).contains("\"success\":false");
    Ok(done && shown(&told).contains(wanted.as_str()))
}

#[test]
fn each_request_in_each_state(rt: HostRuntime) -> Result<(), Fail> {
    let alloc = rt.alloc();
    for (command, refusals) in STATES {
        for (count, why) in refusals.iter().enumerate() {
            let refused = is_refused(alloc, count, command, *why)?;
            assert!(rt; refused, "{command} after {count}: {why}");
        }
    }
    Ok(())
}

/// Launches that are refused, and why.
const LAUNCHES: [(&str, &str); 12] = [
    (r#"{}"#, "bad arguments"),
    (r#"{"program":7}"#, "bad arguments"),
    (r#"{"program":"-"}"#, "bad arguments"),
    (r#"{"program":"/a/t.bas","limit":0}"#, "bad arguments"),
    (
        r#"{"program":"/a/t.bas","limit":1000000001}"#,
        "bad arguments",
    ),
    (r#"{"program":"/a/t.bas","seed":65536}"#, "bad arguments"),
    (r#"{"program":"/a/t.bas","seed":"noon"}"#, "bad arguments"),
    (r#"{"program":"/a/t.bas","rude":-1}"#, "bad arguments"),
    (r#"{"program":"/a/t.bas","noDebug":1}"#, "bad arguments"),
    (r#"{"program":"/a/t.bas","fit":"yes"}"#, "bad arguments"),
    (r#"{"program":"/a/t.bas","keys":"3"}"#, "bad key list"),
    (r#"{"program":"/a/u.bas"}"#, "read fault"),
];

#[test]
fn a_refused_launch_may_be_tried_again(rt: HostRuntime) -> Result<(), Fail> {
    let alloc = rt.alloc();
    for (arguments, why) in LAUNCHES {
        let launch = format!(in alloc;
            "{{\"seq\":2,\"type\":\"request\",\"command\":\"launch\",\"arguments\":{arguments}}}"
        )?;
        let told = answers(alloc, SOURCE, &[INITIALIZE, launch.as_str(), LAUNCH])?;
        let wanted = format!(in alloc;
            "\"message\":\"{why}\",\"request_seq\":2,\"seq\":2,\"success\":false,"
        )?;
        assert!(rt; shown(&told).contains(wanted.as_str()), "{arguments}");
        assert!(rt;
            shown(&told).contains("\"request_seq\":2,\"seq\":3,\"success\":true,"),
            "{arguments}"
        );
    }
    Ok(())
}

#[test]
fn a_bad_source_is_reported(rt: HostRuntime) -> Result<(), Fail> {
    let alloc = rt.alloc();
    let told = answers(alloc, b"10 PRINT A\n20 PRIMT\n", &[INITIALIZE, LAUNCH])?;
    let told = shown(&told);
    assert!(rt;
        told.contains("\"category\":\"stderr\",\"output\":\"/a/t.bas:2:7: error: syntax\\n")
    );
    assert!(rt;
        told.contains("{\"error\":{\"format\":\"2:7: syntax\",\"id\":1,\"showUser\":true}}")
    );
    Ok(())
}

#[test]
fn a_bad_source_may_be_launched_again(rt: HostRuntime) -> Result<(), Fail> {
    let alloc = rt.alloc();
    let twice = answers(alloc, b"10 PRIMT\n", &[INITIALIZE, LAUNCH, LAUNCH, START])?;
    let twice = shown(&twice);
    assert!(rt; twice.contains("\"request_seq\":2,\"seq\":3,\"success\":false,"));
    assert!(rt; twice.contains("\"request_seq\":2,\"seq\":5,\"success\":false,"));
    assert!(rt; twice.contains("\"message\":\"not launched\",\"request_seq\":3,\"seq\":6,"));
    Ok(())
}
