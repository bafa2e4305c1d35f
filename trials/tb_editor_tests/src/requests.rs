//! Requests on a text: worked rows of what is asked and answered.
use crate::dialogues::{behind, frames, frames_and};
use std::alloc::Global;
use std::test::Fail;
use tb_codegen::TinyBasic;
use tb_lsp_server::serve;
use tb_engine_streams::Tracked;
use tb_test_support::FailingReader;
use tb_basic_text::Notation;

/// A dialogue up to the requests: the text is this.
///
/// ```text
/// 10 LET A=1
/// 20 GOSUB 100
/// 30 IF A<5 GOTO 20
/// 40 INPUT B,A
/// 50 GOTO 99
/// 100 REM é next
/// 110 A=A+B
/// 120 RETURN
/// ```
const OPEN: [&str; 2] = [
    r#"{"jsonrpc":"2.0","id":1,"method":"initialize","params":{}}"#,
    r#"{"jsonrpc":"2.0","method":"textDocument/didOpen","params":{"textDocument":{"uri":"u","text":"10 LET A=1\n20 GOSUB 100\n30 IF A<5 GOTO 20\n40 INPUT B,A\n50 GOTO 99\n100 REM é next\n110 A=A+B\n120 RETURN\n"}}}"#,
];

// What is answered to a request with this method and these params, after `OPEN`.
fn asks(alloc: Global, method: &str, params: &str) -> Result<Vec<u8>, Fail> {
    let request = format!(in alloc;
        "{{\"jsonrpc\":\"2.0\",\"id\":2,\"method\":\"textDocument/{method}\",\"params\":{{\"textDocument\":{{\"uri\":\"u\"}}{params}}}}}"
    )?;
    let before = frames(alloc, &OPEN)?;
    let mut all = Vec::from_slice(alloc, before.as_slice())?;
    all.extend_from_slice(frames(alloc, &[request.as_str()])?.as_slice())?;
    let skipped = answered(alloc, before.as_slice());
    let answers = answered(alloc, all.as_slice());
    Ok(Vec::from_slice(alloc, behind(answers.as_slice(), skipped.len()))?)
}

// What a server without signs answers to messages.
pub fn answered(alloc: Global, messages: &[u8]) -> Vec<u8> {
    answered_in(alloc, Notation::Plain, messages)
}

// What a server that reads texts in a notation answers to messages.
pub fn answered_in(alloc: Global, notation: Notation, messages: &[u8]) -> Vec<u8> {
    let mut reader = Tracked::new(FailingReader::new(messages, usize::MAX, 4096));
    let mut writer = Tracked::new(Vec::new(alloc));
    let _ = serve(
        &TinyBasic,
        alloc,
        "9.8.7",
        notation,
        &mut reader,
        &mut writer,
    );
    writer.stream
}

// The frames with which a dialogue begins that opens a text, as JSON has it.
pub fn opening(alloc: Global, text: &str) -> Result<Vec<u8>, Fail> {
    let open = format!(in alloc;
        "{{\"jsonrpc\":\"2.0\",\"method\":\"textDocument/didOpen\",\"params\":{{\"textDocument\":{{\"uri\":\"u\",\"text\":\"{text}\"}}}}}}"
    )?;
    frames_and(alloc, &OPEN[..1], open.as_str())
}

// What is answered to a request with this method and these params on a text, as JSON has it, as a text.
pub fn asked_of_text(
    alloc: Global,
    text: &str,
    method: &str,
    params: &str,
) -> Result<String, Fail> {
    asked_in(alloc, Notation::Plain, text, method, params)
}

// The same of a server that reads texts in a notation.
pub fn asked_in(
    alloc: Global,
    notation: Notation,
    text: &str,
    method: &str,
    params: &str,
) -> Result<String, Fail> {
    let request = format!(in alloc;
        "{{\"jsonrpc\":\"2.0\",\"id\":2,\"method\":\"textDocument/{method}\",\"params\":{{\"textDocument\":{{\"uri\":\"u\"}}{params}}}}}"
    )?;
    let before = opening(alloc, text)?;
    let mut all = Vec::from_slice(alloc, before.as_slice())?;
    all.extend_from_slice(frames(alloc, &[request.as_str()])?.as_slice())?;
    let skipped = answered_in(alloc, notation, before.as_slice());
    let answers = answered_in(alloc, notation, all.as_slice());
    Ok(String::from_str(alloc, shown(behind(answers.as_slice(), skipped.len())))?)
}

// The frame of an answer, as a text.
pub fn wanted_answer(alloc: Global, wanted: &str) -> Result<String, Fail> {
    let frame = frame_of_answer(alloc, wanted)?;
    Ok(String::from_str(alloc, shown(frame.as_slice()))?)
}

// The frame of an answer.
fn frame_of_answer(alloc: Global, wanted: &str) -> Result<Vec<u8>, Fail> {
    let content = format!(in alloc; "{{\"id\":2,\"jsonrpc\":\"2.0\",\"result\":{wanted}}}")?;
    frames(alloc, &[content.as_str()])
}

pub fn shown(bytes: &[u8]) -> &str {
    str::from_utf8(bytes).unwrap_or("no UTF-8")
}

/// Requests, what is asked of them, and what is answered.
const ROWS: [(&str, &str, &str); 31] = [
    // A line is defined where the number stands that begins it.
    (
        "definition",
        r#","position":{"line":1,"character":9}"#,
        r#"{"range":{"end":{"character":3,"line":5},"start":{"character":0,"line":5}},"uri":"u"}"#,
    ),
    (
        "definition",
        r#","position":{"line":1,"character":3}"#,
        r#"{"range":{"end":{"character":3,"line":5},"start":{"character":0,"line":5}},"uri":"u"}"#,
    ),
    (
        "definition",
        r#","position":{"line":0,"character":0}"#,
        r#"{"range":{"end":{"character":2,"line":0},"start":{"character":0,"line":0}},"uri":"u"}"#,
    ),
    (
        "definition",
        r#","position":{"line":4,"character":8}"#,
        "null",
    ),
    (
        "definition",
        r#","position":{"line":0,"character":7}"#,
        "null",
    ),
    (
        "definition",
        r#","position":{"line":99,"character":7}"#,
        "null",
    ),
    (
        "references",
        r#","position":{"line":1,"character":0},"context":{"includeDeclaration":true}"#,
        r#"[{"range":{"end":{"character":2,"line":1},"start":{"character":0,"line":1}},"uri":"u"},{"range":{"end":{"character":17,"line":2},"start":{"character":15,"line":2}},"uri":"u"}]"#,
    ),
    (
        "references",
        r#","position":{"line":1,"character":0},"context":{"includeDeclaration":false}"#,
        r#"[{"range":{"end":{"character":17,"line":2},"start":{"character":15,"line":2}},"uri":"u"}]"#,
    ),
    (
        "references",
        r#","position":{"line":4,"character":8},"context":{"includeDeclaration":true}"#,
        r#"[{"range":{"end":{"character":10,"line":4},"start":{"character":8,"line":4}},"uri":"u"}]"#,
    ),
    (
        "references",
        r#","position":{"line":0,"character":4},"context":{"includeDeclaration":true}"#,
        "[]",
    ),
    (
        "documentHighlight",
        r#","position":{"line":3,"character":9}"#,
        r#"[{"kind":3,"range":{"end":{"character":10,"line":3},"start":{"character":9,"line":3}}},{"kind":2,"range":{"end":{"character":9,"line":6},"start":{"character":8,"line":6}}}]"#,
    ),
    (
        "documentHighlight",
        r#","position":{"line":5,"character":1}"#,
        r#"[{"kind":1,"range":{"end":{"character":12,"line":1},"start":{"character":9,"line":1}}},{"kind":1,"range":{"end":{"character":3,"line":5},"start":{"character":0,"line":5}}}]"#,
    ),
    (
        "documentSymbol",
        "",
        r#"[{"kind":12,"name":"GOSUB 100: é next","range":{"end":{"character":14,"line":5},"start":{"character":0,"line":5}},"selectionRange":{"end":{"character":3,"line":5},"start":{"character":0,"line":5}}}]"#,
    ),
    (
        "codeAction",
        r#","range":{"start":{"line":0,"character":0},"end":{"line":9,"character":0}},"context":{"diagnostics":[]}"#,
        "[]",
    ),
    (
        "hover",
        r#","position":{"line":5,"character":2}"#,
        r#"{"contents":{"kind":"plaintext","value":"line 100: $0CD8, 16 bytes, cost 36"},"range":{"end":{"character":3,"line":5},"start":{"character":0,"line":5}}}"#,
    ),
    (
        "hover",
        r#","position":{"line":1,"character":5}"#,
        r#"{"contents":{"kind":"plaintext","value":"GOSUB E: goes on at the line of this number, up to a RETURN"},"range":{"end":{"character":8,"line":1},"start":{"character":3,"line":1}}}"#,
    ),
    (
        "hover",
        r#","position":{"line":1,"character":10}"#,
        r#"{"contents":{"kind":"plaintext","value":"100 REM é next"},"range":{"end":{"character":12,"line":1},"start":{"character":9,"line":1}}}"#,
    ),
    (
        "hover",
        r#","position":{"line":4,"character":9}"#,
        r#"{"contents":{"kind":"plaintext","value":"no line 99"},"range":{"end":{"character":10,"line":4},"start":{"character":8,"line":4}}}"#,
    ),
    (
        "hover",
        r#","position":{"line":2,"character":8}"#,
        r#"{"contents":{"kind":"plaintext","value":"$0005"},"range":{"end":{"character":9,"line":2},"start":{"character":8,"line":2}}}"#,
    ),
    (
        "hover",
        r#","position":{"line":0,"character":7}"#,
        r#"{"contents":{"kind":"plaintext","value":"A: $C000\nset in 10, 40, 110\nread in 30, 110"},"range":{"end":{"character":8,"line":0},"start":{"character":7,"line":0}}}"#,
    ),
    ("hover", r#","position":{"line":2,"character":7}"#, "null"),
    (
        "formatting",
        r#","options":{"tabSize":4,"insertSpaces":true}"#,
        r#"[]"#,
    ),
    (
        "prepareRename",
        r#","position":{"line":3,"character":9}"#,
        r#"{"placeholder":"B","range":{"end":{"character":10,"line":3},"start":{"character":9,"line":3}}}"#,
    ),
    (
        "prepareRename",
        r#","position":{"line":1,"character":9}"#,
        "null",
    ),
    // Each place of a variable gets the new letter, as a capital.
    (
        "rename",
        r#","position":{"line":0,"character":7},"newName":"x""#,
        r#"{"changes":{"u":[{"newText":"X","range":{"end":{"character":8,"line":0},"start":{"character":7,"line":0}}},{"newText":"X","range":{"end":{"character":7,"line":2},"start":{"character":6,"line":2}}},{"newText":"X","range":{"end":{"character":12,"line":3},"start":{"character":11,"line":3}}},{"newText":"X","range":{"end":{"character":5,"line":6},"start":{"character":4,"line":6}}},{"newText":"X","range":{"end":{"character":7,"line":6},"start":{"character":6,"line":6}}}]}}"#,
    ),
    (
        "rename",
        r#","position":{"line":0,"character":7},"newName":"a""#,
        r#"{"changes":{"u":[]}}"#,
    ),
    (
        "foldingRange",
        "",
        r#"[{"endLine":7,"kind":"region","startLine":5}]"#,
    ),
    (
        "semanticTokens/full",
        "",
        r#"{"data":[0,0,2,2,1,0,3,3,0,0,0,4,1,1,0,0,1,1,5,0,0,1,1,2,0,1,0,2,2,1,0,3,5,0,0,0,6,3,2,0,1,0,2,2,1,0,3,2,0,0,0,3,1,1,0,0,1,1,5,0,0,1,1,2,0,0,2,4,0,0,0,5,2,2,0,1,0,2,2,1,0,3,5,0,0,0,6,1,1,0,0,2,1,1,0,1,0,2,2,1,0,3,4,0,0,0,5,2,2,0,1,0,3,2,1,0,4,3,0,0,0,3,7,4,0,1,0,3,2,1,0,4,1,1,0,0,1,1,5,0,0,1,1,1,0,0,1,1,5,0,0,1,1,1,0,1,0,3,2,1,0,4,6,0,0]}"#,
    ),
    (
        "completion",
        r#","position":{"line":4,"character":9}"#,
        r#"{"isIncomplete":false,"items":[]}"#,
    ),
    (
        "completion",
        r#","position":{"line":1,"character":10}"#,
        r#"{"isIncomplete":false,"items":[{"kind":18,"label":"10","sortText":"00010","textEdit":{"newText":"10","range":{"end":{"character":10,"line":1},"start":{"character":9,"line":1}}}},{"kind":18,"label":"100","sortText":"00100","textEdit":{"newText":"100","range":{"end":{"character":10,"line":1},"start":{"character":9,"line":1}}}},{"kind":18,"label":"110","sortText":"00110","textEdit":{"newText":"110","range":{"end":{"character":10,"line":1},"start":{"character":9,"line":1}}}},{"kind":18,"label":"120","sortText":"00120","textEdit":{"newText":"120","range":{"end":{"character":10,"line":1},"start":{"character":9,"line":1}}}}]}"#,
    ),
    ("hover", r#","position":{"line":8,"character":0}"#, "null"),
];

#[test]
fn requests_on_a_text_are_answered(rt: HostRuntime) -> Result<(), Fail> {
    for (method, params, wanted) in ROWS {
        let answer = asks(rt.alloc(), method, params)?;
        let frame = frame_of_answer(rt.alloc(), wanted)?;
        assert_eq!(rt;
            shown(answer.as_slice()),
            shown(frame.as_slice()),
            "{method} {params}"
        );
    }
    Ok(())
}
