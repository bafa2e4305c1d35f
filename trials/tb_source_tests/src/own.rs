//! What sources ask for by their own words: worked rows.
use std::test::Fail;
use tb_basic_options::{BadWord, OwnOptions, notation_for, own_options};
use tb_basic_text::Notation;

/// A source that asks for nothing.
const NOTHING: OwnOptions = OwnOptions {
    seed: None,
    fit: false,
    petscii: false,
    bad: None,
};

/// Sources and what they ask for.
static ROWS: [(&str, OwnOptions); 16] = [
    ("", NOTHING),
    ("10 PRINT \"REM TBC: --fit\"", NOTHING),
    ("10 REM TBC:", NOTHING),
    ("10 REM --fit", NOTHING),
    ("10 REM TBC: --fit", OwnOptions { fit: true, ..NOTHING }),
    ("10 REM TBC: --fit\n20 rem tbc: --petscii\n", OwnOptions { fit: true, petscii: true, ..NOTHING }),
    (" 1 0 R E MTBC:--seed  7 ", OwnOptions { seed: Some(7), ..NOTHING }),
    ("10 REM TBC: --seed 0", OwnOptions { seed: Some(0), ..NOTHING }),
    ("10 REM TBC: --seed 65535 --seed 0065535", OwnOptions { seed: Some(65535), ..NOTHING }),
    ("10 REM TBC: --seed 1\r\n20 REM TBC: --seed 2", OwnOptions { seed: Some(2), ..NOTHING }),
    ("10 REM TBC: --seed --fit", OwnOptions { bad: Some(BadWord { line: 1, column: 20 }), ..NOTHING }),
    ("10 REM TBC: a --fit b", OwnOptions { fit: true, bad: Some(BadWord { line: 1, column: 13 }), ..NOTHING }),
    ("\n\n\n\n5 REM TBC: --fit", OwnOptions { fit: true, ..NOTHING }),
    ("\n\n\n\n\n6 REM TBC: --fit", NOTHING),
    ("\n2 REM TBC: --seed", OwnOptions { bad: Some(BadWord { line: 2, column: 12 }), ..NOTHING }),
    ("10 REM TBC:--fit=1", OwnOptions { bad: Some(BadWord { line: 1, column: 12 }), ..NOTHING }),
];

#[test]
fn own_words_ask_for_options(rt: HostRuntime) -> Result<(), Fail> {
    for (source, wanted) in &ROWS {
        assert!(rt; own_options(source.as_bytes()) == *wanted);
    }
    Ok(())
}

#[test]
fn a_source_may_ask_for_signs(rt: HostRuntime) -> Result<(), Fail> {
    assert!(rt; notation_for(Notation::Plain, b"10 REM TBC: --petscii") == Notation::Signs);
    assert!(rt; notation_for(Notation::Plain, b"10 REM TBC: --fit") == Notation::Plain);
    assert!(rt; notation_for(Notation::Signs, b"10 END") == Notation::Signs);
    Ok(())
}

/// A line of 255 bytes counts, and a longer one doesn't.
#[test]
fn no_longer_line_counts(rt: HostRuntime) -> Result<(), Fail> {
    let mut line = Vec::new(rt.alloc());
    line.extend_from_slice(b"10 REM TBC: --fit")?;
    while line.len() < 255 {
        line.push(b' ')?;
    }
    assert!(rt; own_options(&line).fit);
    line.push(b' ')?;
    assert!(rt; own_options(&line) == NOTHING);
    Ok(())
}
