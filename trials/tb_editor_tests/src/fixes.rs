//! What mends findings: worked rows.
use crate::dialogues::{behind, frames};
use crate::requests::answered;
use std::alloc::Global;
use std::test::Fail;

const INITIALIZE: &str = r#"{"jsonrpc":"2.0","id":1,"method":"initialize","params":{}}"#;

const ASKED: &str =
    r#"{"jsonrpc":"2.0","id":2,"method":"textDocument/codeAction","params":{"textDocument":{"uri":"u"},"range":{"start":{"line":0,"character":0},"end":{"line":9,"character":0}},"context":{"diagnostics":[]}}}"#;

/// Texts, as JSON has them, and the titles, new texts and ranges of their only fix.
const ROWS: [(&str, &str, &str, &str); 9] = [
    (
        "10 PRIMT A",
        "Write PRINT",
        "PRINT",
        r#"{"end":{"character":8,"line":0},"start":{"character":3,"line":0}}"#,
    ),
    (
        "10 ?A",
        "Write PRINT",
        "PRINT ",
        r#"{"end":{"character":4,"line":0},"start":{"character":3,"line":0}}"#,
    ),
    (
        "10 ? A",
        "Write PRINT",
        "PRINT",
        r#"{"end":{"character":4,"line":0},"start":{"character":3,"line":0}}"#,
    ),
    (
        "10 IF A=1 THEN 20\\n20 END",
        "Write THEN GOTO",
        "GOTO ",
        r#"{"end":{"character":15,"line":0},"start":{"character":15,"line":0}}"#,
    ),
    (
        "10 PRINT \\\"A",
        "Close the text",
        "\\\"",
        r#"{"end":{"character":11,"line":0},"start":{"character":11,"line":0}}"#,
    ),
    (
        "10 END\\n10 PRINT A\\n20 END",
        "Remove the line",
        "",
        r#"{"end":{"character":0,"line":1},"start":{"character":0,"line":0}}"#,
    ),
    (
        "10 PRINT A",
        "Add a line with END",
        "\\n20 END",
        r#"{"end":{"character":10,"line":0},"start":{"character":10,"line":0}}"#,
    ),
    (
        "32765 PRINT A\\n",
        "Add a line with END",
        "32767 END\\n",
        r#"{"end":{"character":0,"line":1},"start":{"character":0,"line":1}}"#,
    ),
    (
        "10 PRINT RND(6)\\n20 END",
        "Write (RND(32766)/5461)",
        "(RND(32766)/5461)",
        r#"{"end":{"character":15,"line":0},"start":{"character":9,"line":0}}"#,
    ),
];

// What is answered to a request for the fixes of a text.
fn fixes_of(alloc: Global, text: &str) -> Result<Vec<u8>, Fail> {
    let open = format!(in alloc;
        "{{\"jsonrpc\":\"2.0\",\"method\":\"textDocument/didOpen\",\"params\":{{\"textDocument\":{{\"uri\":\"u\",\"text\":\"{text}\"}}}}}}"
    )?;
    let before = frames(alloc, &[INITIALIZE, open.as_str()])?;
    let all = frames(alloc, &[INITIALIZE, open.as_str(), ASKED])?;
    let skipped = answered(alloc, before.as_slice());
    let answers = answered(alloc, all.as_slice());
    Ok(Vec::from_slice(alloc, behind(answers.as_slice(), skipped.len()))?)
}

#[test]
fn findings_have_their_fixes(rt: HostRuntime) -> Result<(), Fail> {
    for (text, title, new, range) in ROWS {
        let alloc = rt.alloc();
        let answer = fixes_of(alloc, text)?;
        let answer = str::from_utf8(answer.as_slice()).unwrap_or("no UTF-8");
        let edit = format!(in alloc;
            "\"edit\":{{\"changes\":{{\"u\":[{{\"newText\":\"{new}\",\"range\":{range}}}]}}}},\"isPreferred\":true,\"kind\":\"quickfix\",\"title\":\"{title}\"}}]}}"
        )?;
        assert!(rt; answer.ends_with(edit.as_str()), "{answer}");
    }
    Ok(())
}

// Each RND with the bound on the line is mended, by what its bound comes to, and no other one.
#[test]
fn an_even_bound_is_mended_wherever_it_is(rt: HostRuntime) -> Result<(), Fail> {
    let alloc = rt.alloc();
    let answer = fixes_of(alloc, "10 LET A=RND(2+4)+RND(RND(6)+7)*RND(5)\\n20 END")?;
    let answer = str::from_utf8(answer.as_slice()).unwrap_or("no UTF-8");
    let first =
        r#"{"newText":"(RND(32766)/5461)","range":{"end":{"character":17,"line":0},"start":{"character":9,"line":0}}}"#;
    let second =
        r#"{"newText":"(RND(32766)/5461)","range":{"end":{"character":28,"line":0},"start":{"character":22,"line":0}}}"#;
    let edits = format!(in alloc; "\"changes\":{{\"u\":[{first},{second}]}}")?;
    assert!(rt; answer.contains(edits.as_str()), "{answer}");
    Ok(())
}
