//! Transcripts: what texts say, the canonical text, and where a run differs.
use std::test::Fail;
use tb_engine_transcripts::{
    BadLine, Reason, RunEnd, RunOptions, Transcript, Unread, difference, is_same, read_transcript,
    transcript_text,
};

/// A run that asks for nothing.
const NOTHING: RunOptions = RunOptions {
    seed: None,
    fits: false,
    signs: false,
    limit: None,
    rude: None,
};

/// Texts, and the canonical texts of what they say.
static TEXTS: [(&str, &str); 22] = [
    ("", "# ends\n"),
    ("# ends\n", "# ends\n"),
    ("HELLO", "# ends\nHELLO\n"),
    ("HELLO\n\\", "# ends\nHELLO\n\\\n"),
    ("\n", "# ends\n\n"),
    ("\\", "# ends\n"),
    ("\\\n\\\n", "# ends\n"),
    ("\\\\\n", "# ends\n\\\\\n"),
    ("# waits\n?\n> 1", "# waits\n?\n> 1\n"),
    ("# runs\r\nA\r\nB\r\n", "# runs\nA\nB\n"),
    (
        "# fault 3 at 120\n# seed 7\n",
        "# seed 7\n# fault 3 at 120\n",
    ),
    ("# seed 0", "# seed 0\n# ends\n"),
    ("# fault 0 at 0", "# fault 0 at 0\n"),
    ("# fault 255 at 65535", "# fault 255 at 65535\n"),
    (
        "# rude 0\n# limit 1000000000\n# petscii\n# fit\n# seed 65535",
        "# seed 65535\n# fit\n# petscii\n# limit 1000000000\n# rude 0\n# ends\n",
    ),
    ("\\# seed 7\n", "# ends\n\\# seed 7\n"),
    ("\\> 1\n> 1\n", "# ends\n\\> 1\n> 1\n"),
    ("#\n>\n> \n", "# ends\n#\n>\n> \n"),
    (" # fit\n", "# ends\n # fit\n"),
    ("> 1\n> 2\n", "# ends\n> 1\n> 2\n"),
    ("\n> 1\n", "# ends\n> 1\n"),
    ("\n\n> 1\n", "# ends\n\n\n> 1\n"),
];

/// Texts that are refused, and why.
static REFUSED: [(&str, usize, Reason); 22] = [
    ("# ", 1, Reason::UnknownOption),
    ("# fits", 1, Reason::UnknownOption),
    ("# Fit", 1, Reason::UnknownOption),
    ("# seed", 1, Reason::UnknownOption),
    ("# fit\n#  fit", 2, Reason::UnknownOption),
    ("# fit\n# petscii\n# fit", 3, Reason::Twice),
    ("# seed 1\n# seed 1", 2, Reason::Twice),
    ("# ends\n# waits", 2, Reason::Twice),
    ("# seed 65536", 1, Reason::NoSeed),
    ("# seed 07", 1, Reason::NoSeed),
    ("# seed ", 1, Reason::NoSeed),
    ("# seed 7 ", 1, Reason::NoSeed),
    ("# seed -7", 1, Reason::NoSeed),
    ("# limit 0", 1, Reason::NoLimit),
    ("# limit 1000000001", 1, Reason::NoLimit),
    ("# limit 99999999999999999999", 1, Reason::NoLimit),
    ("# rude 65536", 1, Reason::NoRude),
    ("# fault 256 at 1", 1, Reason::NoFault),
    ("# fault 3 at 65536", 1, Reason::NoFault),
    ("# fault 3", 1, Reason::NoFault),
    ("# fault 3  at 1", 1, Reason::NoFault),
    ("# fit\nA\n> 1\n# fit\n# fit", 4, Reason::BelowOutput),
];

/// What is wanted, what a run sent, and where it differs: the turn, how many bytes are alike there, and the hunk.
static DIFFERENT: [(&str, &str, usize, usize, &str); 9] = [
    ("A\n", "B\n", 0, 0, "@@ -2,1 +2,1 @@\n-A\n+B\n"),
    ("A", "AB\n\\", 0, 1, "@@ -2,1 +2,2 @@\n-A\n+AB\n+\\\n"),
    ("", "A\n", 0, 0, "@@ -1,0 +2,1 @@\n+A\n"),
    (
        "1\n2\n3\n4\n5\n",
        "1\n2\n3\n4\n",
        0,
        8,
        "@@ -3,4 +3,3 @@\n 2\n 3\n 4\n-5\n",
    ),
    (
        "# seed 7\nA\n1\n2\n3\n4\n5\n",
        "A\n6\n7\n8\n9\n10\n11\n",
        0,
        2,
        "@@ -3,5 +2,5 @@\n A\n-1\n-2\n-3\n-4\n+6\n+7\n+8\n+9\n",
    ),
    (
        "?\n> 1\nHIGH\n",
        "?\n> 1\nLOW\n",
        1,
        0,
        "@@ -2,3 +2,3 @@\n ?\n > 1\n-HIGH\n+LOW\n",
    ),
    (
        "?\n> 1\n?\n> 2\n",
        "?\n> 1\n?\n",
        1,
        1,
        "@@ -2,4 +2,3 @@\n ?\n > 1\n ?\n-> 2\n",
    ),
    (
        "# ends\nA\n",
        "# waits\nA\n",
        0,
        2,
        "@@ -1,1 +1,1 @@\n-# ends\n+# waits\n",
    ),
    (
        "# seed 7\n# fault 3 at 120\n?\n> 1\n",
        "# fault 3 at 130\n?\n> 1\n",
        1,
        0,
        "@@ -2,1 +1,1 @@\n-# fault 3 at 120\n+# fault 3 at 130\n",
    ),
];

// What a text says that is good.
fn read(rt: HostRuntime, text: &str) -> Result<Transcript, Fail> {
    match read_transcript(rt.alloc(), text.as_bytes()) {
        Ok(transcript) => Ok(transcript),
        Err(_) => unreachable!(),
    }
}

#[test]
fn texts_have_a_canonical_text(rt: HostRuntime) -> Result<(), Fail> {
    for (text, wanted) in &TEXTS {
        let transcript = read(rt, text)?;
        let canonical = transcript_text(rt.alloc(), &transcript)?;
        assert_eq!(rt; canonical.as_slice(), wanted.as_bytes());
        let again = read(rt, wanted)?;
        assert!(rt; is_same(&transcript, &again) && transcript.options == again.options);
    }
    Ok(())
}

#[test]
fn a_text_says_what_was_sent_and_typed(rt: HostRuntime) -> Result<(), Fail> {
    let text = "# seed 7\n# fault 3 at 120\nGUESS MY NUMBER\n?\n> 50\n\\> HIGH\n\\";
    let transcript = read(rt, text)?;
    assert!(rt;
        transcript.options
            == RunOptions {
                seed: Some(7),
                ..NOTHING
            }
    );
    assert!(rt; transcript.end == RunEnd::Fault(3, 120));
    assert_eq!(rt; transcript.turns.len(), 1);
    assert_eq!(rt;
        transcript.turns[0].sent.as_slice(),
        b"GUESS MY NUMBER\n?".as_slice()
    );
    assert_eq!(rt; transcript.turns[0].typed.as_slice(), b"50".as_slice());
    assert_eq!(rt; transcript.last.as_slice(), b"> HIGH".as_slice());
    Ok(())
}

#[test]
fn bad_lines_are_refused(rt: HostRuntime) -> Result<(), Fail> {
    for (text, line, why) in &REFUSED {
        let wanted = BadLine {
            line: *line,
            why: *why,
        };
        match read_transcript(rt.alloc(), text.as_bytes()) {
            Err(Unread::Bad(bad)) => assert!(rt; bad == wanted),
            _ => unreachable!(),
        }
    }
    let bad = BadLine {
        line: 12,
        why: Reason::BelowOutput,
    };
    assert_eq!(rt;
        format!(in rt.alloc(); "{bad}")?.as_str(),
        "line 12: an option below the output"
    );
    Ok(())
}

#[test]
fn a_difference_is_told_where_it_begins(rt: HostRuntime) -> Result<(), Fail> {
    for (wanted, ran, turn, alike, text) in &DIFFERENT {
        let wanted = read(rt, wanted)?;
        let ran = read(rt, ran)?;
        assert!(rt; !is_same(&wanted, &ran));
        match difference(rt.alloc(), &wanted, &ran)? {
            Some(found) => {
                assert_eq!(rt; found.turn, *turn);
                assert_eq!(rt; found.alike, *alike);
                assert_eq!(rt; found.text.as_slice(), text.as_bytes());
            }
            None => unreachable!(),
        }
    }
    Ok(())
}

#[test]
fn what_is_asked_for_makes_no_difference(rt: HostRuntime) -> Result<(), Fail> {
    let wanted = read(rt, "# seed 7\n# fit\nA\n> 1\n")?;
    let ran = read(rt, "# limit 9\nA\n> 1\n")?;
    assert!(rt; is_same(&wanted, &ran));
    assert!(rt; difference(rt.alloc(), &wanted, &ran)?.is_none());
    Ok(())
}
