//! What is offered at a place of a text: worked rows.
use crate::requests::{asked_of_text, wanted_answer};
use std::test::Fail;

/// Texts, as JSON has them, a line and a character, and the items.
const ROWS: [(&str, u32, u32, &str); 14] = [
    // A word is completed in either case, with a space behind it.
    (
        "10 pri",
        0,
        6,
        r#"{"kind":14,"label":"PRINT","textEdit":{"newText":"PRINT ","range":{"end":{"character":6,"line":0},"start":{"character":3,"line":0}}}}"#,
    ),
    (
        "10 R",
        0,
        4,
        r#"{"kind":14,"label":"RETURN","textEdit":{"newText":"RETURN","range":{"end":{"character":4,"line":0},"start":{"character":3,"line":0}}}},{"kind":14,"label":"REM","textEdit":{"newText":"REM ","range":{"end":{"character":4,"line":0},"start":{"character":3,"line":0}}}}"#,
    ),
    (
        "10 PRINT RN",
        0,
        11,
        r#"{"kind":14,"label":"RND","textEdit":{"newText":"RND(","range":{"end":{"character":11,"line":0},"start":{"character":9,"line":0}}}}"#,
    ),
    (
        "10 IF A=1 t",
        0,
        11,
        r#"{"kind":14,"label":"THEN","textEdit":{"newText":"THEN ","range":{"end":{"character":11,"line":0},"start":{"character":10,"line":0}}}}"#,
    ),
    // Where nothing is typed, all words that may follow are offered.
    (
        "10 ",
        0,
        3,
        r#"{"kind":14,"label":"LET","textEdit":{"newText":"LET ","range":{"end":{"character":3,"line":0},"start":{"character":3,"line":0}}}},{"kind":14,"label":"PRINT","textEdit":{"newText":"PRINT ","range":{"end":{"character":3,"line":0},"start":{"character":3,"line":0}}}},{"kind":14,"label":"INPUT","textEdit":{"newText":"INPUT ","range":{"end":{"character":3,"line":0},"start":{"character":3,"line":0}}}},{"kind":14,"label":"IF","textEdit":{"newText":"IF ","range":{"end":{"character":3,"line":0},"start":{"character":3,"line":0}}}},{"kind":14,"label":"GOTO","textEdit":{"newText":"GOTO ","range":{"end":{"character":3,"line":0},"start":{"character":3,"line":0}}}},{"kind":14,"label":"GOSUB","textEdit":{"newText":"GOSUB ","range":{"end":{"character":3,"line":0},"start":{"character":3,"line":0}}}},{"kind":14,"label":"RETURN","textEdit":{"newText":"RETURN","range":{"end":{"character":3,"line":0},"start":{"character":3,"line":0}}}},{"kind":14,"label":"END","textEdit":{"newText":"END","range":{"end":{"character":3,"line":0},"start":{"character":3,"line":0}}}},{"kind":14,"label":"REM","textEdit":{"newText":"REM ","range":{"end":{"character":3,"line":0},"start":{"character":3,"line":0}}}}"#,
    ),
    (
        "10 IF A=1 ",
        0,
        10,
        r#"{"kind":14,"label":"LET","textEdit":{"newText":"LET ","range":{"end":{"character":10,"line":0},"start":{"character":10,"line":0}}}},{"kind":14,"label":"PRINT","textEdit":{"newText":"PRINT ","range":{"end":{"character":10,"line":0},"start":{"character":10,"line":0}}}},{"kind":14,"label":"INPUT","textEdit":{"newText":"INPUT ","range":{"end":{"character":10,"line":0},"start":{"character":10,"line":0}}}},{"kind":14,"label":"IF","textEdit":{"newText":"IF ","range":{"end":{"character":10,"line":0},"start":{"character":10,"line":0}}}},{"kind":14,"label":"THEN","textEdit":{"newText":"THEN ","range":{"end":{"character":10,"line":0},"start":{"character":10,"line":0}}}},{"kind":14,"label":"GOTO","textEdit":{"newText":"GOTO ","range":{"end":{"character":10,"line":0},"start":{"character":10,"line":0}}}},{"kind":14,"label":"GOSUB","textEdit":{"newText":"GOSUB ","range":{"end":{"character":10,"line":0},"start":{"character":10,"line":0}}}},{"kind":14,"label":"RETURN","textEdit":{"newText":"RETURN","range":{"end":{"character":10,"line":0},"start":{"character":10,"line":0}}}},{"kind":14,"label":"END","textEdit":{"newText":"END","range":{"end":{"character":10,"line":0},"start":{"character":10,"line":0}}}},{"kind":14,"label":"REM","textEdit":{"newText":"REM ","range":{"end":{"character":10,"line":0},"start":{"character":10,"line":0}}}}"#,
    ),
    // Numbers are those of lines that stand, in the file's order.
    (
        r#"20 END\n10 GOTO \n30 END\n30"#,
        1,
        8,
        r#"{"kind":14,"label":"RND","textEdit":{"newText":"RND(","range":{"end":{"character":8,"line":1},"start":{"character":8,"line":1}}}},{"kind":18,"label":"20","sortText":"00020","textEdit":{"newText":"20","range":{"end":{"character":8,"line":1},"start":{"character":8,"line":1}}}}"#,
    ),
    ("10 LET A=5", 0, 10, ""),
    (
        "10 GOSUB 1",
        0,
        10,
        r#"{"kind":18,"label":"10","sortText":"00010","textEdit":{"newText":"10","range":{"end":{"character":10,"line":0},"start":{"character":9,"line":0}}}}"#,
    ),
    // Elsewhere the number of a line is no more fitting than others.
    (r#"10 GOTO 20\n"#, 1, 0, ""),
    (
        "10 PRINT 1;",
        0,
        11,
        r#"{"kind":14,"label":"RND","textEdit":{"newText":"RND(","range":{"end":{"character":11,"line":0},"start":{"character":11,"line":0}}}}"#,
    ),
    // Nothing is offered in remarks and texts.
    ("10 REM P", 0, 8, ""),
    ("10 REM ", 0, 7, ""),
    (r#"10 PRINT \"P"#, 0, 11, ""),
];

#[test]
fn what_may_follow_is_offered(rt: HostRuntime) -> Result<(), Fail> {
    let alloc = rt.alloc();
    for (text, line, character, items) in ROWS {
        let params = format!(in alloc;
            ",\"position\":{{\"line\":{line},\"character\":{character}}}"
        )?;
        let answer = asked_of_text(alloc, text, "completion", params.as_str())?;
        let wanted = format!(in alloc; "{{\"isIncomplete\":false,\"items\":[{items}]}}")?;
        let frame = wanted_answer(alloc, wanted.as_str())?;
        assert_eq!(rt; answer.as_str(), frame.as_str(), "{text}");
    }
    Ok(())
}
