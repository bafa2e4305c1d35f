//! Web pages: their titles, and what stands between the fixed texts.
use std::test::Fail;
use tb_codegen::TinyBasic;
use tb_compiled::{Compile, CompileSettings, SizeLimit};
use tb_engine_page::{prg_page, source_page, title_of};
use tb_basic_text::Notation;

/// Two lines of this source have one number, and one has bytes that HTML reserves, and others that are no ASCII.
const SOURCE: &[u8] = b"20 END\n10 PRINT 1\n 10 REM \"</pre>&' \xc3\xa4\n";

/// The rows of its page. The code of line 10 begins at the first address, that of line 20 behind it.
const ROWS: [&[u8]; 2] = [
    b"\n<li value=\"10\" data-at=\"0C00\"> 10 REM &quot;&lt;/pre&gt;&amp;&#39; ??</li>\n<li value=\"20\" data-at=\"",
    b"\">20 END</li>\n</ol>",
];

// How often a piece occurs in a text.
fn count(text: &[u8], piece: &[u8]) -> usize {
    let mut found = 0usize;
    for start in 0..text.len() {
        if text[start..].starts_with(piece) {
            found = found.saturating_add(1);
        }
    }
    found
}

#[test]
fn a_page_is_called_as_its_file(rt: HostRuntime) -> Result<(), Fail> {
    let rows: [(Option<&str>, &str, &str); 7] = [
        (None, "d/a.bas", "a"),
        (None, "a", "a"),
        (None, "a.b.prg", "a.b"),
        (None, ".bas", ".bas"),
        (None, "-", "-"),
        (None, "", ""),
        (Some(""), "a.bas", ""),
    ];
    for (asked, path, wanted) in rows {
        assert_eq!(rt; title_of(asked, path), wanted);
    }
    Ok(())
}

#[test]
fn nothing_of_a_program_is_html(rt: HostRuntime) -> Result<(), Fail> {
    let page = prg_page(rt.alloc(), "</script>\"&'\u{e4}", &[0x00, 0xc0, 0x60])?;
    let title: &[u8] = b">&lt;/script&gt;&quot;&amp;&#39;\xc3\xa4</";
    assert_eq!(rt; count(&page, title), 2);
    assert_eq!(rt; count(&page, b" value=\"\"></data>"), 1);
    assert_eq!(rt; count(&page, b">00c060</pre>"), 1);
    assert_eq!(rt; count(&page, b"<li "), 0);
    Ok(())
}

#[test]
fn a_page_has_each_line_where_it_begins(rt: HostRuntime) -> Result<(), Fail> {
    let alloc = rt.alloc();
    let settings = CompileSettings {
        seed: 7,
        size: SizeLimit::Cost,
        notation: Notation::Plain,
    };
    let Ok(program) = TinyBasic.compile(alloc, SOURCE, settings) else {
        unreachable!()
    };
    let page = source_page(alloc, "a", 7, SOURCE, &program)?;
    assert_eq!(rt; count(&page, b" value=\"7\"></data>"), 1);
    assert_eq!(rt; count(&page, b"<li "), 2);
    for row in ROWS {
        assert_eq!(rt; count(&page, row), 1);
    }
    Ok(())
}

#[test]
fn a_page_has_the_characters_of_both_sets(rt: HostRuntime) -> Result<(), Fail> {
    let page = prg_page(rt.alloc(), "a", &[0, 0])?;
    assert_eq!(rt; count(&page, b">&#64;&#65;&#66;"), 1);
    assert_eq!(rt; count(&page, b"&#64;&#97;&#98;"), 1);
    assert_eq!(rt; count(&page, b"&#9824;"), 1);
    assert_eq!(rt; count(&page, b"&#"), 256);
    Ok(())
}
