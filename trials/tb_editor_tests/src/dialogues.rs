//! Dialogues with the language server.
use std::alloc::Global;
use std::io::Read;
use std::test::Fail;
use tb_codegen::TinyBasic;
use tb_lsp_server::serve;
use tb_engine_streams::Tracked;
use tb_test_support::{FailingReader, FailingWriter};
use tb_basic_text::Notation;

/// The messages of a whole dialogue.
const MESSAGES: [&str; 6] = [
    r#"{"jsonrpc":"2.0","id":1,"method":"initialize","params":{}}"#,
    r#"{"jsonrpc":"2.0","method":"initialized","params":{}}"#,
    r#"{"jsonrpc":"2.0","method":"textDocument/didOpen","params":{"textDocument":{"uri":"file:///a.bas","languageId":"tinybasic","version":1,"text":"10 PRIMT A\n20 END\n"}}}"#,
    r#"{"jsonrpc":"2.0","method":"textDocument/didChange","params":{"textDocument":{"uri":"file:///a.bas","version":2},"contentChanges":[{"text":"10 PRINT A\n20 END\n"}]}}"#,
    r#"{"jsonrpc":"2.0","id":2,"method":"shutdown"}"#,
    r#"{"jsonrpc":"2.0","method":"exit"}"#,
];

/// What is answered.
const ANSWERS: [&str; 4] = [
    r#"{"id":1,"jsonrpc":"2.0","result":{"capabilities":{"codeActionProvider":{"codeActionKinds":["quickfix"]},"completionProvider":{"triggerCharacters":[" "]},"definitionProvider":true,"documentFormattingProvider":true,"documentHighlightProvider":true,"documentSymbolProvider":true,"foldingRangeProvider":true,"hoverProvider":true,"positionEncoding":"utf-16","referencesProvider":true,"renameProvider":{"prepareProvider":true},"semanticTokensProvider":{"full":true,"legend":{"tokenModifiers":["declaration"],"tokenTypes":["keyword","variable","number","string","comment","operator","function"]}},"textDocumentSync":{"change":1,"openClose":true}},"serverInfo":{"name":"tbc","version":"9.8.7"}}}"#,
    r#"{"jsonrpc":"2.0","method":"textDocument/publishDiagnostics","params":{"diagnostics":[{"code":"syntax","message":"syntax: did you mean PRINT","range":{"end":{"character":8,"line":0},"start":{"character":6,"line":0}},"severity":1,"source":"tbc"}],"uri":"file:///a.bas","version":1}}"#,
    r#"{"jsonrpc":"2.0","method":"textDocument/publishDiagnostics","params":{"diagnostics":[],"uri":"file:///a.bas","version":2}}"#,
    r#"{"id":2,"jsonrpc":"2.0","result":null}"#,
];

// Frames with these contents.
pub fn frames(alloc: Global, contents: &[&str]) -> Result<Vec<u8>, Fail> {
    let mut bytes = Vec::new(alloc);
    for content in contents {
        let length = content.len();
        let content = *content;
        bytes.extend_from_slice(format!(in alloc;
            "Content-Length: {length}\r\n\r\n{content}"
        )?.as_bytes())?;
    }
    Ok(bytes)
}

/// The frames of messages, and of another one after them.
pub fn frames_and(alloc: Global, messages: &[&str], last: &str) -> Result<Vec<u8>, Fail> {
    let mut bytes = frames(alloc, messages)?;
    bytes.extend_from_slice(frames(alloc, &[last])?.as_slice())?;
    Ok(bytes)
}

// What is left of bytes after the first n.
pub fn behind(bytes: &[u8], count: usize) -> &[u8] {
    match bytes.get(count..) {
        Some(rest) => rest,
        None => &[],
    }
}

// So many bytes.
fn front(bytes: &[u8], count: usize) -> &[u8] {
    match bytes.get(..count) {
        Some(front) => front,
        None => bytes,
    }
}

// The status of a dialogue, and whether it was answered so.
fn answers<R: Read + Drop>(alloc: Global, reader: R, wanted: &[u8]) -> (u8, bool) {
    let mut writer = Tracked::new(Vec::new(alloc));
    let mut reader = Tracked::new(reader);
    let outcome = serve(
        &TinyBasic,
        alloc,
        "9.8.7",
        Notation::Plain,
        &mut reader,
        &mut writer,
    );
    (outcome.status(), writer.stream.as_slice() == wanted)
}

#[test]
fn a_bad_source_is_told_of_until_it_is_mended(rt: HostRuntime) -> Result<(), Fail> {
    let alloc = rt.alloc();
    let messages = frames(alloc, &MESSAGES)?;
    let wanted = frames(alloc, &ANSWERS)?;
    for most in [1, 2, 7, 100, 4096] {
        let reader = FailingReader::new(messages.as_slice(), usize::MAX, most);
        assert_eq!(rt; answers(alloc, reader, wanted.as_slice()), (0, true));
    }
    Ok(())
}

// What is answered to messages, and the status at their end.
fn served(alloc: Global, messages: &[u8], until_fault: usize) -> (u8, Vec<u8>) {
    let reader = FailingReader::new(messages, until_fault, 4096);
    let mut writer = Tracked::new(Vec::new(alloc));
    let mut reader = Tracked::new(reader);
    let outcome = serve(
        &TinyBasic,
        alloc,
        "9.8.7",
        Notation::Plain,
        &mut reader,
        &mut writer,
    );
    (outcome.status(), writer.stream)
}

#[test]
fn a_dialogue_that_is_cut_is_answered_up_to_there(rt: HostRuntime) -> Result<(), Fail> {
    let alloc = rt.alloc();
    let messages = frames(alloc, &MESSAGES)?;
    let whole = frames(alloc, &ANSWERS)?;
    for length in 0..messages.len() {
        let (status, answers) = served(alloc, &messages.as_slice()[..length], usize::MAX);
        assert!(rt; status == 1 || status == 3 || status == 0, "{length}");
        assert!(rt;
            whole.as_slice().starts_with(answers.as_slice()),
            "{length}"
        );
        let (status, answers) = served(alloc, messages.as_slice(), length);
        assert_eq!(rt; status, 3, "{length}");
        assert!(rt;
            whole.as_slice().starts_with(answers.as_slice()),
            "{length}"
        );
    }
    Ok(())
}

#[test]
fn a_writer_that_fails_has_a_prefix(rt: HostRuntime) -> Result<(), Fail> {
    let alloc = rt.alloc();
    let messages = frames(alloc, &MESSAGES)?;
    let whole = frames(alloc, &ANSWERS)?;
    for length in 0..whole.len() {
        let mut reader = Tracked::new(FailingReader::new(messages.as_slice(), usize::MAX, 4096));
        let mut writer = Tracked::new(FailingWriter::new(alloc, length, 7));
        let outcome = serve(
            &TinyBasic,
            alloc,
            "9.8.7",
            Notation::Plain,
            &mut reader,
            &mut writer,
        );
        assert_eq!(rt; outcome.status(), 3, "{length}");
        assert_eq!(rt; writer.stream.taken.as_slice(), &whole.as_slice()[..length]);
    }
    Ok(())
}

/// Messages that are refused, each with the error that answers it.
const REFUSED: [(&str, &str); 8] = [
    (
        r#"{"jsonrpc":"2.0","id":7,"method":"textDocument/hover","params":{"textDocument":{"uri":"v"},"position":{"line":0,"character":0}}}"#,
        r#"{"error":{"code":-32602,"message":"text not open"},"id":7,"jsonrpc":"2.0"}"#,
    ),
    (
        r#"{"jsonrpc":"2.0","id":"a","method":"textDocument/hover"}"#,
        r#"{"error":{"code":-32602,"message":"bad params"},"id":"a","jsonrpc":"2.0"}"#,
    ),
    (
        r#"{"jsonrpc":"2.0","id":7,"method":"textDocument/hover","params":{"textDocument":{"uri":"file:///a.bas"}}}"#,
        r#"{"error":{"code":-32602,"message":"bad params"},"id":7,"jsonrpc":"2.0"}"#,
    ),
    (
        r#"{"jsonrpc":"2.0","id":7,"method":"textDocument/hover","params":{"textDocument":{"uri":"file:///a.bas"},"position":{"line":-1,"character":0}}}"#,
        r#"{"error":{"code":-32602,"message":"bad params"},"id":7,"jsonrpc":"2.0"}"#,
    ),
    (
        r#"{"jsonrpc":"2.0","id":7,"method":"textDocument/references","params":{"textDocument":{"uri":"file:///a.bas"},"position":{"line":0,"character":0}}}"#,
        r#"{"error":{"code":-32602,"message":"bad params"},"id":7,"jsonrpc":"2.0"}"#,
    ),
    (
        r#"{"jsonrpc":"2.0","id":7,"method":"textDocument/implementation","params":{}}"#,
        r#"{"error":{"code":-32601,"message":"unknown method"},"id":7,"jsonrpc":"2.0"}"#,
    ),
    (
        r#"{"jsonrpc":"2.0","id":7,"method":"initialize","params":{}}"#,
        r#"{"error":{"code":-32600,"message":"initialized already"},"id":7,"jsonrpc":"2.0"}"#,
    ),
    (
        r#"{"jsonrpc":"2.0","id":null,"method":"shutdown"}"#,
        r#"{"error":{"code":-32600,"message":"no message"},"id":null,"jsonrpc":"2.0"}"#,
    ),
];

#[test]
fn what_is_refused_has_its_error(rt: HostRuntime) -> Result<(), Fail> {
    let alloc = rt.alloc();
    let begun = [MESSAGES[0], MESSAGES[2]];
    let before = served(alloc, frames(alloc, &begun)?.as_slice(), usize::MAX).1;
    for (message, wanted) in REFUSED {
        let all = frames(alloc, &[begun[0], begun[1], message])?;
        let (_, answers) = served(alloc, all.as_slice(), usize::MAX);
        let frame = frames(alloc, &[wanted])?;
        assert_eq!(rt;
            behind(answers.as_slice(), before.len()),
            frame.as_slice(),
            "{message}"
        );
    }
    Ok(())
}

#[test]
fn a_text_is_changed_two_thousand_times(rt: HostRuntime) -> Result<(), Fail> {
    let alloc = rt.alloc();
    let mut messages = frames(alloc, &MESSAGES[..3])?;
    let change = frames(alloc, &MESSAGES[3..4])?;
    for _ in 0..2000 {
        messages.extend_from_slice(change.as_slice())?;
    }
    messages.extend_from_slice(frames(alloc, &MESSAGES[4..])?.as_slice())?;
    let (status, answers) = served(alloc, messages.as_slice(), usize::MAX);
    let ends = frames(alloc, &ANSWERS[2..])?;
    assert_eq!(rt; status, 0);
    assert!(rt; answers.as_slice().ends_with(ends.as_slice()));
    Ok(())
}

/// The requests on texts.
const REQUESTS: [&str; 12] = [
    "hover",
    "definition",
    "references",
    "documentHighlight",
    "documentSymbol",
    "codeAction",
    "formatting",
    "completion",
    "prepareRename",
    "rename",
    "foldingRange",
    "semanticTokens/full",
];

// A request on a text, with params that serve each of them.
fn request(alloc: Global, method: &str, uri: &str) -> Result<String, Fail> {
    Ok(format!(in alloc;
        "{{\"jsonrpc\":\"2.0\",\"id\":7,\"method\":\"textDocument/{method}\",\"params\":{{\"textDocument\":{{\"uri\":\"{uri}\"}},\"position\":{{\"line\":0,\"character\":9}},\"newName\":\"Q\",\"range\":{{\"start\":{{\"line\":0,\"character\":0}},\"end\":{{\"line\":0,\"character\":0}}}},\"context\":{{\"includeDeclaration\":true}}}}}}"
    )?)
}

// Whether messages are answered with this as the last frame.
fn ends_with(alloc: Global, messages: &[u8], content: &str) -> Result<bool, Fail> {
    let answers = served(alloc, messages, usize::MAX).1;
    Ok(
        answers
            .as_slice()
            .ends_with(frames(alloc, &[content])?.as_slice()),
    )
}

// The error that answers a request.
fn error(alloc: Global, code: i32, message: &str) -> Result<String, Fail> {
    Ok(format!(in alloc;
        "{{\"error\":{{\"code\":{code},\"message\":\"{message}\"}},\"id\":7,\"jsonrpc\":\"2.0\"}}"
    )?)
}

#[test]
fn requests_are_refused_when_new_and_when_shut(rt: HostRuntime) -> Result<(), Fail> {
    let alloc = rt.alloc();
    let early = error(alloc, -32002, "not initialized")?;
    let late = error(alloc, -32600, "shut down")?;
    let closed = error(alloc, -32602, "text not open")?;
    for method in REQUESTS {
        let asked = request(alloc, method, "file:///a.bas")?;
        let asked = asked.as_str();
        let new = frames(alloc, &[asked])?;
        assert!(rt;
            ends_with(alloc, new.as_slice(), early.as_str())?,
            "{method}"
        );
        let shut = frames_and(alloc, &MESSAGES[..5], asked)?;
        assert!(rt;
            ends_with(alloc, shut.as_slice(), late.as_str())?,
            "{method}"
        );
        let unopened = frames_and(alloc, &MESSAGES[..1], asked)?;
        assert!(rt;
            ends_with(alloc, unopened.as_slice(), closed.as_str())?,
            "{method}"
        );
    }
    Ok(())
}

/// Requests whose params have not the form that they ask for.
const MALFORMED: [(&str, &str); 6] = [
    ("completion", ""),
    ("completion", r#","position":{"line":0,"character":"0"}"#),
    ("prepareRename", r#","position":{"line":0}"#),
    ("rename", r#","position":{"line":0,"character":9}"#),
    (
        "rename",
        r#","position":{"line":0,"character":9},"newName":7"#,
    ),
    ("rename", r#","newName":"Q""#),
];

#[test]
fn params_of_another_form_are_refused(rt: HostRuntime) -> Result<(), Fail> {
    let alloc = rt.alloc();
    let refused = error(alloc, -32602, "bad params")?;
    for (method, params) in MALFORMED {
        let asked = format!(in alloc;
            "{{\"jsonrpc\":\"2.0\",\"id\":7,\"method\":\"textDocument/{method}\",\"params\":{{\"textDocument\":{{\"uri\":\"file:///a.bas\"}}{params}}}}}"
        )?;
        let messages = frames_and(alloc, &MESSAGES[..3], asked.as_str())?;
        assert!(rt;
            ends_with(alloc, messages.as_slice(), refused.as_str())?,
            "{method} {params}"
        );
    }
    Ok(())
}

// The messages of a dialogue with all requests.
fn all_requests(alloc: Global) -> Result<Vec<u8>, Fail> {
    let mut messages = frames(alloc, &MESSAGES[..4])?;
    for method in REQUESTS {
        let asked = request(alloc, method, "file:///a.bas")?;
        messages.extend_from_slice(frames(alloc, &[asked.as_str()])?.as_slice())?;
    }
    messages.extend_from_slice(frames(alloc, &MESSAGES[4..])?.as_slice())?;
    Ok(messages)
}

// Whatever is cut off of a dialogue, and wherever its reader fails, what was answered before is answered.
#[test]
fn all_requests_are_answered_up_to_a_cut(rt: HostRuntime) -> Result<(), Fail> {
    let alloc = rt.alloc();
    let messages = all_requests(alloc)?;
    let (status, whole) = served(alloc, messages.as_slice(), usize::MAX);
    assert_eq!(rt; status, 0);
    for step in 0..messages.len() / 7 {
        let length = step.saturating_mul(7);
        let (status, answers) = served(alloc, front(messages.as_slice(), length), usize::MAX);
        assert!(rt; status == 1 || status == 3 || status == 0, "{length}");
        assert!(rt;
            whole.as_slice().starts_with(answers.as_slice()),
            "{length}"
        );
    }
    Ok(())
}

#[test]
fn all_answers_are_prefixes_where_the_writer_fails(rt: HostRuntime) -> Result<(), Fail> {
    let alloc = rt.alloc();
    let messages = all_requests(alloc)?;
    let whole = served(alloc, messages.as_slice(), usize::MAX).1;
    for step in 0..whole.len() / 23 {
        let length = step.saturating_mul(23);
        let mut reader = Tracked::new(FailingReader::new(messages.as_slice(), usize::MAX, 4096));
        let mut writer = Tracked::new(FailingWriter::new(alloc, length, 7));
        let outcome = serve(
            &TinyBasic,
            alloc,
            "9.8.7",
            Notation::Plain,
            &mut reader,
            &mut writer,
        );
        assert_eq!(rt; outcome.status(), 3, "{length}");
        assert_eq!(rt;
            writer.stream.taken.as_slice(),
            front(whole.as_slice(), length)
        );
    }
    Ok(())
}

// A program that is too large by its cost alone is no error, and says so.
#[test]
fn a_text_may_cost_more_than_its_code_takes(rt: HostRuntime) -> Result<(), Fail> {
    let alloc = rt.alloc();
    let mut text = String::from_str(alloc, "1 PRINT \\\"A\\\"\\n2 GOTO 3000\\n")?;
    for number in 3..1050 {
        let line = format!(in alloc; "{number} END\\n")?;
        text.push_str(line.as_str())?;
    }
    let open = format!(in alloc;
        "{{\"jsonrpc\":\"2.0\",\"method\":\"textDocument/didOpen\",\"params\":{{\"textDocument\":{{\"uri\":\"u\",\"text\":\"{text}\"}}}}}}"
    )?;
    let messages = frames_and(alloc, &MESSAGES[..1], open.as_str())?;
    let answers = served(alloc, messages.as_slice(), usize::MAX).1;
    let answers = str::from_utf8(answers.as_slice()).unwrap_or("no UTF-8");
    for told in [
        "\"diagnostics\":[{\"code\":\"no-line\",\"message\":\"no line 3000\"",
        "{\"code\":\"program-too-large\",\"message\":\"program too large (37949 bytes) without --fit\"",
        "\"severity\":3",
    ] {
        assert!(rt; answers.contains(told), "{told} in {answers}");
    }
    Ok(())
}

// A text of the largest size, and one that has a byte more.
#[test]
fn a_text_may_have_1048576_bytes(rt: HostRuntime) -> Result<(), Fail> {
    let alloc = rt.alloc();
    for (size, code) in [(1_048_576, "empty-program"), (1_048_577, "read-fault")] {
        let text = vec![in alloc; b' '; size]?;
        let text = str::from_utf8(text.as_slice()).unwrap_or("no UTF-8");
        let open = format!(in alloc;
            "{{\"jsonrpc\":\"2.0\",\"method\":\"textDocument/didOpen\",\"params\":{{\"textDocument\":{{\"uri\":\"u\",\"text\":\"{text}\"}}}}}}"
        )?;
        let messages = frames_and(alloc, &MESSAGES[..1], open.as_str())?;
        let answers = served(alloc, messages.as_slice(), usize::MAX).1;
        let told = format!(in alloc; "\"diagnostics\":[{{\"code\":\"{code}\"")?;
        let answers = str::from_utf8(answers.as_slice()).unwrap_or("no UTF-8");
        assert!(rt; answers.contains(told.as_str()), "{size}");
    }
    Ok(())
}
