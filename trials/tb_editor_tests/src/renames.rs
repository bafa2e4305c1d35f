//! What is renamed, folded, shown and made tidy of a text: worked rows.
use crate::requests::{asked_of_text, wanted_answer};
use std::test::Fail;

/// Requests, texts as JSON has them, what is asked, and what is answered.
const ROWS: [(&str, &str, &str, &str); 8] = [
    (
        "formatting",
        r#"10 PRINT\n20 if a=1then goto10\n30 ?"#,
        "",
        r#"[{"newText":"20 IF A=1 THEN GOTO 10","range":{"end":{"character":20,"line":1},"start":{"character":0,"line":1}}}]"#,
    ),
    (
        "rename",
        r#"10 PRINT A\n20 a=a+b"#,
        r#","position":{"line":1,"character":5},"newName":"Z""#,
        r#"{"changes":{"u":[{"newText":"Z","range":{"end":{"character":10,"line":0},"start":{"character":9,"line":0}}},{"newText":"Z","range":{"end":{"character":4,"line":1},"start":{"character":3,"line":1}}},{"newText":"Z","range":{"end":{"character":6,"line":1},"start":{"character":5,"line":1}}}]}}"#,
    ),
    (
        "prepareRename",
        "10 let q=1",
        r#","position":{"line":0,"character":7}"#,
        r#"{"placeholder":"Q","range":{"end":{"character":8,"line":0},"start":{"character":7,"line":0}}}"#,
    ),
    (
        "prepareRename",
        "10 let q=",
        r#","position":{"line":0,"character":8}"#,
        "null",
    ),
    (
        "foldingRange",
        r#"10 REM a\n20 REM b\n30 rem\n40 GOSUB 60\n50 END\n60 REM c\n70 REM d\n80 RETURN\n90 REM"#,
        "",
        r#"[{"endLine":2,"kind":"comment","startLine":0},{"endLine":7,"kind":"region","startLine":5},{"endLine":6,"kind":"comment","startLine":5}]"#,
    ),
    (
        "foldingRange",
        r#"10 GOSUB 20\n20 PRINT\n30 RETURN\n30 END"#,
        "",
        "[]",
    ),
    ("foldingRange", r#"10 REM\n\n20 REM"#, "", "[]"),
    (
        "semanticTokens/full",
        r#"10 PRINT (RND(6)),\"𝄞\";-1\n?"#,
        "",
        r#"{"data":[0,0,2,2,1,0,3,5,0,0,0,7,3,6,0,0,4,1,2,0,0,4,4,3,0,0,5,1,5,0,0,1,1,2,0]}"#,
    ),
];

/// Texts in which a variable is not renamed, what is asked, and the error that answers it.
const REFUSED: [(&str, &str, i32, &str); 7] = [
    (
        "10 A=A",
        r#","position":{"line":0,"character":0},"newName":"??""#,
        -32803,
        "no variable here",
    ),
    (
        r#"10 A=A\nx"#,
        r#","position":{"line":0,"character":3},"newName":"AB""#,
        -32602,
        "not a letter",
    ),
    (
        "10 A=A",
        r#","position":{"line":0,"character":3},"newName":"""#,
        -32602,
        "not a letter",
    ),
    (
        "10 A=A",
        r#","position":{"line":0,"character":3},"newName":"é""#,
        -32602,
        "not a letter",
    ),
    (
        r#"10 A=B\nx"#,
        r#","position":{"line":0,"character":3},"newName":"B""#,
        -32803,
        "bad line in the text",
    ),
    (
        "10 A=B",
        r#","position":{"line":0,"character":3},"newName":"b""#,
        -32803,
        "letter in use",
    ),
    (
        "10 A=B",
        r#","position":{"line":0,"character":3}"#,
        -32602,
        "bad params",
    ),
];

#[test]
fn texts_are_renamed_folded_shown_and_made_tidy(rt: HostRuntime) -> Result<(), Fail> {
    let alloc = rt.alloc();
    for (method, text, params, wanted) in ROWS {
        let answer = asked_of_text(alloc, text, method, params)?;
        let frame = wanted_answer(alloc, wanted)?;
        assert_eq!(rt; answer.as_str(), frame.as_str(), "{text}");
    }
    Ok(())
}

#[test]
fn what_is_not_renamed_has_its_error(rt: HostRuntime) -> Result<(), Fail> {
    let alloc = rt.alloc();
    for (text, params, code, message) in REFUSED {
        let answer = asked_of_text(alloc, text, "rename", params)?;
        let error = format!(in alloc;
            "{{\"error\":{{\"code\":{code},\"message\":\"{message}\"}},\"id\":2,\"jsonrpc\":\"2.0\"}}"
        )?;
        assert!(rt; answer.as_str().ends_with(error.as_str()), "{text}");
    }
    Ok(())
}
