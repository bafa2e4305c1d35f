//! Pages: what a browser would take for its own is escaped, and each row occurs once.
use crate::profile::programs::{LOOP, Program, profiles, programs, shelf_of};
use std::alloc::Global;
use std::test::Fail;

/// A program whose line has each byte that is escaped.
const MARKED: Program = Program {
    name: "marks",
    source: "10 PRINT \"<A & 'B'>\"\n20 END\n",
    keys: b"",
    limit: 10_000,
    status: 0,
    table: "",
};

fn page_of(alloc: Global, program: &Program) -> Vec<u8> {
    let mut shelf = shelf_of(alloc, program);
    profiles(alloc, program, &mut shelf);
    shelf.saved.pop().unwrap_or(Vec::new(alloc))
}

// How often a piece occurs in a text.
fn count(text: &[u8], piece: &[u8]) -> usize {
    let mut found = 0usize;
    for start in 0..text.len() {
        if text[start..].starts_with(piece) {
            found = found.saturating_add(1);
        }
    }
    found
}

#[test]
fn a_statement_stands_for_itself(rt: HostRuntime) -> Result<(), Fail> {
    let page = page_of(rt.alloc(), &MARKED);
    let cell: &[u8] =
        b"<td class=\"source\">PRINT &quot;&lt;A &amp; &#39;B&#39;&gt;&quot;</td></tr>\n";
    assert_eq!(rt; count(&page, cell), 1);
    assert_eq!(rt; count(&page, b"<A"), 0);
    Ok(())
}

#[test]
fn a_page_has_a_row_for_each_line(rt: HostRuntime) -> Result<(), Fail> {
    for program in programs() {
        let page = page_of(rt.alloc(), program);
        let rows = program
            .table
            .as_bytes()
            .split(|byte| *byte == b'\n')
            .count();
        assert!(rt; page.as_slice().starts_with(b"<!DOCTYPE html>\n"));
        assert!(rt; page.as_slice().ends_with(b"</table>\n</body>\n</html>\n"));
        assert_eq!(rt;
            count(&page, b"</tr>\n"),
            rows.saturating_add(9),
            "{}",
            program.name
        );
    }
    Ok(())
}

/// What a page is to have, once each, or as often as it says.
#[derive(Clone, Copy)]
struct Wanted {
    program: Program,
    pieces: &'static [(usize, &'static [u8])],
}

/// A loop of which a line never runs, and which is cut off.
const CUT_OFF: Program = Program {
    name: "cut <off>",
    source: "10 LET A=A+1\n20 GOTO 10\n30 END\n",
    keys: b"12\r",
    limit: 5_000,
    status: 5,
    table: "",
};

static PAGES: [Wanted; 2] = [
    Wanted {
        program: LOOP,
        pieces: &[
            (1, b"<title>Profile of a loop</title>\n"),
            (1, b"<h1>Profile of a loop</h1>\n"),
            (
                1,
                b"<tr><th scope=\"row\">end</th><td class=\"text\">returned</td></tr>\n",
            ),
            (
                1,
                b"<tr><th scope=\"row\">lines begun</th><td>17</td></tr>\n",
            ),
            (
                1,
                b"<tr><th scope=\"row\">instructions</th><td>415</td></tr>\n",
            ),
            (1, b"<tr><th scope=\"row\">cycles</th><td>1,469</td></tr>\n"),
            (
                1,
                b"<tr><th scope=\"row\">seconds of a PAL machine</th><td>0.001</td></tr>\n",
            ),
            (1, b"<tr><th scope=\"row\">seed</th><td>1</td></tr>\n"),
            (
                1,
                b"<tr><th scope=\"row\">fit</th><td class=\"text\">no</td></tr>\n",
            ),
            (
                1,
                b"<tr><th scope=\"row\">limit of events</th><td>100,000</td></tr>\n",
            ),
            (
                1,
                b"<tr><th scope=\"row\">keys</th><td class=\"text\">none</td></tr>\n",
            ),
            (
                1,
                b"<tr><th scope=\"row\">answers</th><td class=\"text\">none</td></tr>\n",
            ),
            (
                1,
                b"<tr><th scope=\"row\">ROM</th><td class=\"text\">quiet</td></tr>\n",
            ),
            (
                1,
                b"<tr class=\"h9\"><th scope=\"row\">start</th><td>1</td><td>192</td><td>634</td><td>634</td>\
<td>43.2%</td><td class=\"bar\"><span style=\"width: 10.0em\"></span></td><td class=\"source\"></td></tr>\n",
            ),
            (
                1,
                b"<tr class=\"h7\"><th scope=\"row\">20</th><td>5</td><td>130</td><td>485</td><td>97</td>\
<td>33.0%</td><td class=\"bar\"><span style=\"width: 7.6em\"></span></td><td class=\"source\">PRINT I</td></tr>\n",
            ),
            (0, b"never ran"),
        ],
    },
    Wanted {
        program: CUT_OFF,
        pieces: &[
            (1, b"<title>Profile of cut &lt;off&gt;</title>\n"),
            (1, b"<h1>Profile of cut &lt;off&gt;</h1>\n"),
            (
                1,
                b"<tr><th scope=\"row\">end</th><td class=\"text\">step limit</td></tr>\n",
            ),
            (
                1,
                b"<tr><th scope=\"row\">instructions</th><td>5,000</td></tr>\n",
            ),
            (
                1,
                b"<tr><th scope=\"row\">seconds of a PAL machine</th><td>0.021</td></tr>\n",
            ),
            (
                1,
                b"<tr><th scope=\"row\">limit of events</th><td>5,000</td></tr>\n",
            ),
            (
                1,
                b"<tr><th scope=\"row\">keys</th><td class=\"text\">31320d</td></tr>\n",
            ),
            (
                1,
                b"<tr class=\"h9\"><th scope=\"row\">10</th><td>437</td><td>2,623</td><td>11,367</td><td>26</td>\
<td>56.0%</td><td class=\"bar\"><span style=\"width: 10.0em\"></span></td><td class=\"source\">LET A=A+1</td></tr>\n",
            ),
            (
                1,
                b"<tr class=\"never\"><th scope=\"row\">30</th><td>0</td><td>0</td><td>0</td><td></td>\
<td>0.0%</td><td class=\"bar\">never ran</td><td class=\"source\">END</td></tr>\n",
            ),
            (1, b"never ran"),
        ],
    },
];

// All of them. The table is named here alone, since each function that names it takes long to prove.
fn wanted_pages() -> &'static [Wanted] {
    &PAGES
}

#[test]
fn a_page_says_what_the_run_was_and_took(rt: HostRuntime) -> Result<(), Fail> {
    for wanted in wanted_pages() {
        let page = page_of(rt.alloc(), &wanted.program);
        for (times, piece) in wanted.pieces {
            assert_eq!(rt; count(&page, piece), *times);
        }
    }
    Ok(())
}
