//! Keys that are typed, limits, and what a run that only runs tells.
use super::support::{answers, shown};
use std::alloc::Global;
use std::test::Fail;

const INITIALIZE: &str = r#"{"seq":1,"type":"request","command":"initialize"}"#;

const START: &str = r#"{"seq":3,"type":"request","command":"configurationDone"}"#;

/// A source that asks for a number twice.
const ASKS: &[u8] = b"10 INPUT A\n20 INPUT B\n30 PRINT A+B\n";

/// A source that doesn't end.
const LOOPS: &[u8] = b"10 LET A=A+1\n20 GOTO 10\n";

/// A source that divides by 0.
const FAULTS: &[u8] = b"10 PRINT 1/A\n";

// What is answered after a launch with these arguments.
fn told(alloc: Global, source: &[u8], more: &str, messages: &[&str]) -> Result<Vec<u8>, Fail> {
    let launch = format!(in alloc;
        "{{\"seq\":2,\"type\":\"request\",\"command\":\"launch\",\"arguments\":{{\"program\":\"/a/t.bas\"{more}}}}}"
    )?;
    let mut all = Vec::new(alloc);
    all.push(INITIALIZE)?;
    all.push(launch.as_str())?;
    for message in messages {
        all.push(*message)?;
    }
    answers(alloc, source, &all)
}

#[test]
fn lines_are_typed_where_the_program_waits(rt: HostRuntime) -> Result<(), Fail> {
    let alloc = rt.alloc();
    let told = told(
        alloc,
        ASKS,
        "",
        &[
            r#"{"seq":9,"type":"request","command":"evaluate","arguments":{"expression":">1","context":"repl"}}"#,
            START,
            r#"{"seq":4,"type":"request","command":"evaluate","arguments":{"expression":">  4","context":"repl"}}"#,
            r#"{"seq":5,"type":"request","command":"evaluate","arguments":{"expression":"A","context":"hover"}}"#,
            r#"{"seq":6,"type":"request","command":"evaluate","arguments":{"expression":"> 5","context":"repl"}}"#,
            r#"{"seq":7,"type":"request","command":"continue"}"#,
            r#"{"seq":8,"type":"request","command":"evaluate","arguments":{"expression":">6","context":"repl"}}"#,
        ],
    )?;
    let told = shown(&told);
    assert!(rt; told.contains("\"message\":\"not started\",\"request_seq\":9"));
    assert!(rt;
        told.contains(
            "{\"body\":{\"result\":\"4\",\"type\":\"word\",\"variablesReference\":0},\"command\":\"evaluate\",\"request_seq\":5"
        )
    );
    assert!(rt; told.contains("\"output\":\"\\n9\\n"));
    assert!(rt; told.contains("\"message\":\"terminated\",\"request_seq\":8"));
    Ok(())
}

#[test]
fn a_limit_pauses_a_run(rt: HostRuntime) -> Result<(), Fail> {
    let alloc = rt.alloc();
    let told = told(
        alloc,
        LOOPS,
        ",\"limit\":1000",
        &[
            START,
            r#"{"seq":4,"type":"request","command":"pause"}"#,
            r#"{"seq":5,"type":"request","command":"continue"}"#,
        ],
    )?;
    let told = shown(&told);
    assert!(rt; told.contains("\"description\":\"paused after 1000 events\",\"reason\":\"pause\""));
    assert!(rt; told.contains("{\"command\":\"pause\",\"request_seq\":4,"));
    Ok(())
}

#[test]
fn a_run_that_only_runs_ends_at_once(rt: HostRuntime) -> Result<(), Fail> {
    let alloc = rt.alloc();
    let told = told(alloc, FAULTS, ",\"noDebug\":true", &[START])?;
    let told = shown(&told);
    assert!(rt; told.contains("!2 AT 10"));
    assert!(rt; told.contains("{\"body\":{\"exitCode\":0},\"event\":\"exited\""));
    assert!(rt; told.contains("{\"event\":\"terminated\""));
    assert!(rt; !told.contains("\"event\":\"stopped\""));
    Ok(())
}
