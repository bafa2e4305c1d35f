//! Texts with signs: a server reads them in the notation that it was made with, and in no other.
use crate::requests::{answered_in, asked_in, opening, shown, wanted_answer};
use std::alloc::Global;
use std::test::Fail;
use tb_basic_text::Notation;

/// A text whose only sign is in a line to which another one goes, as JSON has it.
const JUMPS: &str = r#"10 PRINT \"{clr}\"\n20 GOTO 10"#;

/// Requests, texts as JSON has them, what is asked, and what is answered with signs and without.
const ROWS: [(&str, &str, &str, &str, &str); 7] = [
    (
        "definition",
        JUMPS,
        r#","position":{"line":1,"character":8}"#,
        r#"{"range":{"end":{"character":2,"line":0},"start":{"character":0,"line":0}},"uri":"u"}"#,
        "null",
    ),
    (
        "references",
        JUMPS,
        r#","position":{"line":1,"character":8},"context":{"includeDeclaration":true}"#,
        r#"[{"range":{"end":{"character":2,"line":0},"start":{"character":0,"line":0}},"uri":"u"},{"range":{"end":{"character":10,"line":1},"start":{"character":8,"line":1}},"uri":"u"}]"#,
        r#"[{"range":{"end":{"character":10,"line":1},"start":{"character":8,"line":1}},"uri":"u"}]"#,
    ),
    (
        "hover",
        JUMPS,
        r#","position":{"line":1,"character":9}"#,
        r#"{"contents":{"kind":"plaintext","value":"10 PRINT \"{clr}\""},"range":{"end":{"character":10,"line":1},"start":{"character":8,"line":1}}}"#,
        r#"{"contents":{"kind":"plaintext","value":"no line 10"},"range":{"end":{"character":10,"line":1},"start":{"character":8,"line":1}}}"#,
    ),
    (
        "completion",
        r#"10 PRINT \"{3 down}\"\n20 GOTO 1"#,
        r#","position":{"line":1,"character":9}"#,
        r#"{"isIncomplete":false,"items":[{"kind":18,"label":"10","sortText":"00010","textEdit":{"newText":"10","range":{"end":{"character":9,"line":1},"start":{"character":8,"line":1}}}}]}"#,
        r#"{"isIncomplete":false,"items":[]}"#,
    ),
    (
        "completion",
        r#"10 PRINT \"{clr}\";RN"#,
        r#","position":{"line":0,"character":19}"#,
        r#"{"isIncomplete":false,"items":[{"kind":14,"label":"RND","textEdit":{"newText":"RND(","range":{"end":{"character":19,"line":0},"start":{"character":17,"line":0}}}}]}"#,
        r#"{"isIncomplete":false,"items":[]}"#,
    ),
    (
        "prepareRename",
        r#"10 PRINT \"[{C1}]\";A"#,
        r#","position":{"line":0,"character":18}"#,
        r#"{"placeholder":"A","range":{"end":{"character":19,"line":0},"start":{"character":18,"line":0}}}"#,
        "null",
    ),
    (
        "foldingRange",
        r#"10 GOSUB 30\n20 END\n30 PRINT \"{red}\"\n40 RETURN"#,
        "",
        r#"[{"endLine":3,"kind":"region","startLine":2}]"#,
        "[]",
    ),
];

#[test]
fn requests_are_answered_with_signs_or_without(rt: HostRuntime) -> Result<(), Fail> {
    let alloc = rt.alloc();
    for (method, text, params, signs, plain) in ROWS {
        for (notation, wanted) in [(Notation::Signs, signs), (Notation::Plain, plain)] {
            let answer = asked_in(alloc, notation, text, method, params)?;
            let frame = wanted_answer(alloc, wanted)?;
            assert_eq!(rt; answer.as_str(), frame.as_str(), "{method} {text}");
        }
    }
    Ok(())
}

// Whether a server publishes no finding of a text, as JSON has it.
fn is_good(alloc: Global, notation: Notation, text: &str) -> Result<bool, Fail> {
    let told = answered_in(alloc, notation, opening(alloc, text)?.as_slice());
    Ok(shown(told.as_slice()).contains("\"diagnostics\":[]"))
}

#[test]
fn a_sign_is_a_finding_where_there_are_none(rt: HostRuntime) -> Result<(), Fail> {
    let alloc = rt.alloc();
    for text in [JUMPS, r#"10 PRINT \"[{C1}]{3 down}\"\n20 END"#] {
        assert!(rt; is_good(alloc, Notation::Signs, text)?, "{text}");
        let told = answered_in(alloc, Notation::Plain, opening(alloc, text)?.as_slice());
        assert!(rt;
            shown(told.as_slice()).contains("\"diagnostics\":[{\"code\":\"bad-byte\","),
            "{text}"
        );
    }
    Ok(())
}

#[test]
fn an_unknown_sign_is_a_finding(rt: HostRuntime) -> Result<(), Fail> {
    let text = r#"10 PRINT \"{cls}\"\n20 END"#;
    for notation in [Notation::Signs, Notation::Plain] {
        assert!(rt; !is_good(rt.alloc(), notation, text)?);
    }
    Ok(())
}

/// The numbers of a line whose text is one byte, however that is written.
const NUMBERED: [&str; 3] = [
    r#"10 PRINT \"A\"\n20 END"#,
    r#"10 PRINT \"{clr}\"\n20 END"#,
    r#"10 PRINT \"]\"\n20 END"#,
];

#[test]
fn a_sign_is_as_long_as_its_byte(rt: HostRuntime) -> Result<(), Fail> {
    let alloc = rt.alloc();
    let place = r#","position":{"line":0,"character":1}"#;
    let wanted = asked_in(alloc, Notation::Plain, NUMBERED[0], "hover", place)?;
    assert!(rt; wanted.as_str().contains("\"value\":\"line 10: $0C"));
    for text in NUMBERED {
        let answer = asked_in(alloc, Notation::Signs, text, "hover", place)?;
        assert_eq!(rt; answer.as_str(), wanted.as_str(), "{text}");
    }
    Ok(())
}

#[test]
fn a_variable_beside_a_sign_is_renamed(rt: HostRuntime) -> Result<(), Fail> {
    let alloc = rt.alloc();
    let text = r#"10 C=1\n20 PRINT \"{clr}\";C"#;
    let asked = r#","position":{"line":0,"character":3},"newName":"B""#;
    let answer = asked_in(alloc, Notation::Signs, text, "rename", asked)?;
    let wanted = wanted_answer(
        alloc,
        r#"{"changes":{"u":[{"newText":"B","range":{"end":{"character":4,"line":0},"start":{"character":3,"line":0}}},{"newText":"B","range":{"end":{"character":18,"line":1},"start":{"character":17,"line":1}}}]}}"#,
    )?;
    assert_eq!(rt; answer.as_str(), wanted.as_str());
    let refused = asked_in(alloc, Notation::Plain, text, "rename", asked)?;
    assert!(rt;
        refused
            .as_str()
            .contains("\"message\":\"bad line in the text\"")
    );
    Ok(())
}

/// What asks for the fixes of a text's first line.
const FIXES: &str =
    r#","range":{"start":{"line":0,"character":0},"end":{"line":0,"character":0}},"context":{"diagnostics":[]}"#;

/// Texts with a sign that stands for nothing, as JSON has them, the name that is meant, what is written, and where.
const MENDED: [(&str, &str, &str, u32, u32); 4] = [
    (r#"10 PRINT \"{cls}\""#, "clr", "clr", 11, 14),
    (r#"10 PRINT \"A{3 dwon}\""#, "down", "down", 14, 18),
    (r#"10 PRINT \"{CLR\""#, "clr", "clr}", 11, 14),
    (r#"10 PRINT \"A{2 rvo"#, "rvon", "rvon}", 14, 17),
];

#[test]
fn the_name_that_is_meant_is_offered(rt: HostRuntime) -> Result<(), Fail> {
    let alloc = rt.alloc();
    for (text, name, new, start, end) in MENDED {
        let answer = asked_in(alloc, Notation::Signs, text, "codeAction", FIXES)?;
        let edit = format!(in alloc;
            "\"edit\":{{\"changes\":{{\"u\":[{{\"newText\":\"{new}\",\"range\":{{\"end\":{{\"character\":{end},\"line\":0}},\"start\":{{\"character\":{start},\"line\":0}}}}}}]}}}},\"isPreferred\":true,\"kind\":\"quickfix\",\"title\":\"Write {{{name}}}\"}}]}}"
        )?;
        assert!(rt; answer.as_str().ends_with(edit.as_str()), "{text}");
    }
    Ok(())
}

#[test]
fn a_name_that_is_written_is_not_offered(rt: HostRuntime) -> Result<(), Fail> {
    let alloc = rt.alloc();
    let none = wanted_answer(alloc, "[]")?;
    for text in [
        r#"10 PRINT \"{256 up}\""#,
        r#"10 PRINT \"{UP 2}\""#,
        r#"10 PRINT \"{??}\""#,
    ] {
        let answer = asked_in(alloc, Notation::Signs, text, "codeAction", FIXES)?;
        assert_eq!(rt; answer.as_str(), none.as_str(), "{text}");
    }
    Ok(())
}

/// A text that asks for signs itself, as JSON has it.
const OWN: &str = r#"5 REM TBC: --petscii\n10 PRINT \"{clr}\"\n20 GOTO 10"#;

#[test]
fn a_text_may_ask_for_signs(rt: HostRuntime) -> Result<(), Fail> {
    let alloc = rt.alloc();
    assert!(rt; is_good(alloc, Notation::Plain, OWN)?);
    let place = r#","position":{"line":2,"character":8}"#;
    let answer = asked_in(alloc, Notation::Plain, OWN, "definition", place)?;
    let frame = wanted_answer(
        alloc,
        r#"{"range":{"end":{"character":2,"line":1},"start":{"character":0,"line":1}},"uri":"u"}"#,
    )?;
    assert_eq!(rt; answer.as_str(), frame.as_str());
    Ok(())
}

#[test]
fn a_word_that_is_no_option_is_a_finding(rt: HostRuntime) -> Result<(), Fail> {
    let text = r#"10 REM TBC: --fast\n20 END"#;
    let told = answered_in(rt.alloc(), Notation::Plain, opening(rt.alloc(), text)?.as_slice());
    assert!(rt;
        shown(told.as_slice()).contains(
            r#""diagnostics":[{"code":"no-option","message":"not --fit, --petscii or --seed with a number","range":{"end":{"character":13,"line":0},"start":{"character":12,"line":0}},"severity":1,"source":"tbc"}]"#
        )
    );
    Ok(())
}
