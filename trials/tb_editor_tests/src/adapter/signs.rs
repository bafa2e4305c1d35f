//! Sources with signs: they are launched where that is asked for, or where the adapter has that notation.
use super::support::{answers_in, shown};
use std::alloc::Global;
use std::test::Fail;
use tb_basic_text::Notation;

/// A source with a sign.
const SOURCE: &[u8] = b"10 PRINT \"{clr}\";\n20 PRINT \"B\"\n30 END\n";

const INITIALIZE: &str = r#"{"seq":1,"type":"request","command":"initialize"}"#;

/// Where it is stopped at the line with the sign, and then at its end.
const MESSAGES: [&str; 4] = [
    r#"{"seq":3,"type":"request","command":"setBreakpoints","arguments":{"source":{"path":"t.bas"},"breakpoints":[{"line":1}]}}"#,
    r#"{"seq":4,"type":"request","command":"configurationDone"}"#,
    r#"{"seq":5,"type":"request","command":"stackTrace","arguments":{"threadId":1}}"#,
    r#"{"seq":6,"type":"request","command":"continue"}"#,
];

// What an adapter that has a notation answers, where the source is launched with these arguments too.
fn told(alloc: Global, notation: Notation, more: &str) -> Result<Vec<u8>, Fail> {
    told_of(alloc, notation, SOURCE, more)
}

// The same of another source.
fn told_of(
    alloc: Global,
    notation: Notation,
    source: &[u8],
    more: &str,
) -> Result<Vec<u8>, Fail> {
    let launch = format!(in alloc;
        "{{\"seq\":2,\"type\":\"request\",\"command\":\"launch\",\"arguments\":{{\"program\":\"/a/t.bas\"{more}}}}}"
    )?;
    let mut messages = Vec::new(alloc);
    messages.push(INITIALIZE)?;
    messages.push(launch.as_str())?;
    for message in MESSAGES {
        messages.push(message)?;
    }
    answers_in(alloc, notation, source, &messages)
}

/// Launches whose source may have signs.
const LAUNCHED: [(Notation, &str); 3] = [
    (Notation::Plain, ",\"petscii\":true"),
    (Notation::Signs, ""),
    (Notation::Signs, ",\"petscii\":true"),
];

#[test]
fn a_source_with_signs_is_debugged(rt: HostRuntime) -> Result<(), Fail> {
    for (notation, more) in LAUNCHED {
        let told = told(rt.alloc(), notation, more)?;
        let told = shown(&told);
        assert!(rt;
            told.contains(
                "{\"id\":10,\"line\":1,\"source\":{\"name\":\"t.bas\",\"path\":\"/a/t.bas\"},\"verified\":true}"
            ),
            "{told}"
        );
        assert!(rt;
            told.contains("\"line\":1,\"name\":\"10 PRINT \\\"{clr}\\\";\""),
            "{told}"
        );
        assert!(rt; told.contains("\"output\":\"{93}B\\n"), "{told}");
        assert!(rt;
            told.contains("\"description\":\"returned\",\"reason\":\"end\""),
            "{told}"
        );
    }
    Ok(())
}

/// Launches whose source may have none.
const REFUSED: [(Notation, &str); 3] = [
    (Notation::Plain, ""),
    (Notation::Plain, ",\"petscii\":false"),
    (Notation::Signs, ",\"petscii\":false"),
];

#[test]
fn without_signs_the_source_is_refused(rt: HostRuntime) -> Result<(), Fail> {
    for (notation, more) in REFUSED {
        let told = told(rt.alloc(), notation, more)?;
        let told = shown(&told);
        assert!(rt;
            told.contains("\"output\":\"/a/t.bas:1:11: error: bad byte"),
            "{told}"
        );
        assert!(rt;
            told.contains("\"message\":\"1:11: bad byte\",\"request_seq\":2,"),
            "{told}"
        );
        assert!(rt;
            told.contains("\"message\":\"not launched\",\"request_seq\":3,"),
            "{told}"
        );
    }
    Ok(())
}

#[test]
fn the_flag_is_true_or_false(rt: HostRuntime) -> Result<(), Fail> {
    for flag in ["1", "\"yes\"", "[]"] {
        let more = format!(in rt.alloc(); ",\"petscii\":{flag}")?;
        let told = told(rt.alloc(), Notation::Signs, more.as_str())?;
        assert!(rt;
            shown(&told).contains("\"message\":\"bad arguments\",\"request_seq\":2,"),
            "{flag}"
        );
    }
    Ok(())
}

/// A source that asks for signs itself, and for a seed. The state after 7 is 58988, that after 0 is 13849, and that after
/// the clock's 4711 is 49228.
const OWN: &[u8] = b"10 REM TBC: --petscii --seed 7\n20 PRINT \"{clr}\";RND(1000)\n30 END\n";

/// What is launched, and what the source prints.
const OWN_LAUNCHES: [(&str, &str); 5] = [
    ("", "\"output\":\"{93}988\\n"),
    (",\"petscii\":false", "\"output\":\"{93}988\\n"),
    (",\"seed\":0", "\"output\":\"{93}849\\n"),
    (",\"seed\":\"time\"", "\"output\":\"{93}228\\n"),
    (",\"seed\":\"time\"", "\"category\":\"console\",\"output\":\"the seed is 4711\\n\""),
];

#[test]
fn a_source_may_ask_for_signs_and_a_seed(rt: HostRuntime) -> Result<(), Fail> {
    for (more, wanted) in OWN_LAUNCHES {
        let told = told_of(rt.alloc(), Notation::Plain, OWN, more)?;
        let told = shown(&told);
        assert!(rt; told.contains(wanted), "{told}");
    }
    Ok(())
}
