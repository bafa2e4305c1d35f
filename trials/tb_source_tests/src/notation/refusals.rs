//! Sources with texts that are refused: by which fault, and where.
use std::alloc::Global;
use std::test::Fail;
use tb_parser::{SourceErrorKind, parse, parse_in};
use tb_basic_text::Notation;

/// A source, what is wrong with it, and where: the line and the column.
type Row = (&'static str, SourceErrorKind, usize, usize);

static WITH_SIGNS: [Row; 14] = [
    // A name that is none, at its brace.
    ("10 PRINT \"{cls}\"", SourceErrorKind::BadByte, 1, 11),
    ("10 PRINT \"A{clr\"", SourceErrorKind::BadByte, 1, 12),
    ("10 PRINT \"}\"", SourceErrorKind::BadByte, 1, 11),
    ("10 PRINT \"{}\"", SourceErrorKind::BadByte, 1, 11),
    // A quote and a new line are no bytes of a text.
    ("10 PRINT \"{22}\"", SourceErrorKind::BadByte, 1, 11),
    ("10 PRINT \"{clr}{0d}\"", SourceErrorKind::BadByte, 1, 16),
    // No count is 0 or above 255.
    ("10 PRINT \"{0 up}\"", SourceErrorKind::BadByte, 1, 11),
    ("10 PRINT \"{256 up}\"", SourceErrorKind::BadByte, 1, 11),
    // Outside texts nothing changes.
    ("10 PRINT {clr}", SourceErrorKind::BadByte, 1, 10),
    ("10 PRINT A[1]", SourceErrorKind::BadByte, 1, 11),
    // A line stands for at most 255 bytes: `10PRINT"` are 8 of them.
    ("10 PRINT \"{248 up}\"", SourceErrorKind::LineTooLong, 1, 11),
    (
        "10 PRINT \"{200 up}{50 up}\"",
        SourceErrorKind::LineTooLong,
        1,
        19,
    ),
    // The first bad line is told.
    (
        "10 PRINT \"{clr}\"\n20 PRINT \"{clear}\"",
        SourceErrorKind::BadByte,
        2,
        11,
    ),
    // A text without its second quote has signs too: then the column is behind the line.
    ("10 PRINT \"{clr}", SourceErrorKind::Syntax, 1, 16),
];

// Whether a source is refused like this where it may have signs.
fn is_refused(alloc: Global, row: &Row) -> bool {
    match parse_in(alloc, Notation::Signs, row.0.as_bytes()) {
        Ok(_) => false,
        Err(error) => error.kind == row.1 && error.line == row.2 && error.column == row.3,
    }
}

#[test]
fn what_is_no_sign_is_refused_at_its_brace(rt: HostRuntime) -> Result<(), Fail> {
    for row in &WITH_SIGNS {
        assert!(rt; is_refused(rt.alloc(), row));
    }
    Ok(())
}

#[test]
fn a_line_may_stand_for_255_bytes(rt: HostRuntime) -> Result<(), Fail> {
    let source = "10 PRINT \"{246 up}\"";
    assert!(rt; parse_in(rt.alloc(), Notation::Signs, source.as_bytes()).is_ok());
    Ok(())
}

#[test]
fn without_signs_a_brace_and_a_bracket_are_bad_bytes(rt: HostRuntime) -> Result<(), Fail> {
    for source in ["10 PRINT \"{clr}\"", "10 PRINT \"[\"", "10 PRINT \"]\""] {
        match parse(rt.alloc(), source.as_bytes()) {
            Ok(_) => assert!(rt; false),
            Err(error) => {
                assert!(rt; error.kind == SourceErrorKind::BadByte && error.column == 11);
            }
        }
    }
    Ok(())
}
