//! Worked programs: what they are run on, what they show and how they end.
use std::alloc::Global;
use std::test::Fail;

/// A program, what it is run on, and what it comes to.
#[derive(Clone, Copy)]
pub struct Row<'a> {
    pub source: &'a str,
    /// The seed of RND.
    pub seed: u16,
    /// The keyboard's text.
    pub keys: &'a [u8],
    /// What the polls of the keyboard answer.
    pub answers: &'a [u8],
    /// The exit status.
    pub status: u8,
    /// The text on standard output.
    pub shown: &'a str,
    /// The text on standard error.
    pub said: &'a str,
}

/// A program that shows nothing and ends.
pub const PLAIN: Row<'static> = Row {
    source: "",
    seed: 1,
    keys: b"",
    answers: b"",
    status: 0,
    shown: "",
    said: "",
};

const TWO_INPUTS: Row<'static> = Row {
    source: "10 INPUT A,B\n20 PRINT A+B\n30 END",
    ..PLAIN
};

const HELLO: Row<'static> = Row {
    source: "10 PRINT \"HELLO\"\n20 END",
    ..PLAIN
};

static ROWS: [Row<'static>; 51] = [
    Row {
        shown: "HELLO\n",
        ..HELLO
    },
    Row {
        source: "10 PRINT \"a b\"",
        shown: "A B\n\n!7 AT 10\n",
        ..PLAIN
    },
    Row {
        source: "10 PRINT 1,2,3\n20 PRINT 1;2;3\n30 PRINT \"AB\",\n40 PRINT \"C\"\n50 END",
        shown: "1       2       3\n123\nAB      C\n",
        ..PLAIN
    },
    Row {
        source: "10 PRINT \"12345678\",9\n20 END",
        shown: "12345678        9\n",
        ..PLAIN
    },
    Row {
        source: "10 PRINT 32767+1\n20 END",
        shown: "-32768\n",
        ..PLAIN
    },
    Row {
        source: "10 PRINT (0-32768)/(0-1)\n20 PRINT (0-7)/2\n30 END",
        shown: "-32768\n-3\n",
        ..PLAIN
    },
    // Over 256 and 128: the upper byte, its sign kept, of both signs and at the edges.
    Row {
        source: "10 A=-32768\n20 PRINT A/256;\" \";A/128\n30 A=A+1\n40 PRINT A/256;\" \";A/128\n50 A=255\n\
            60 PRINT A/256;\" \";A/128\n70 A=-A\n80 PRINT A/256;\" \";A/128\n90 A=-256\n\
            100 PRINT A/256;\" \";A-A/128*128\n110 END",
        shown: "-128 -256\n-127 -255\n0 1\n0 -1\n-1 0\n",
        ..PLAIN
    },
    // Above 0 or not, and against multiples of 256: of both signs, at 0 and beside it.
    Row {
        source: "10 IF A>0 PRINT 1;\n20 IF A<1 PRINT 2;\n30 A=A-1\n40 IF A>=1 PRINT 3;\n50 IF A<256 PRINT 4;\n\
            60 A=A+257\n70 IF A>255 PRINT 5;\n80 IF A<=0 PRINT 6;\n90 A=A-A+1\n100 IF A>0 PRINT 7;\n\
            110 IF A<-256 PRINT 8;\n120 A=-32768\n130 IF A<-256 PRINT 9\n140 END",
        shown: "24579\n",
        ..PLAIN
    },
    // Equal to a constant of which a byte is 0: each byte of the word decides alone.
    Row {
        source: "10 IF A=0 PRINT 1;\n20 A=A-256\n30 IF A=0 PRINT 2;\n40 IF A<>0 PRINT 3;\n50 IF A<>-256 PRINT 4;\n\
            60 IF A=-256 PRINT 5;\n70 A=1\n80 IF A=0 PRINT 6;\n90 IF A<>256 PRINT 7\n100 END",
        shown: "1357\n",
        ..PLAIN
    },
    Row {
        source: "10 IF 0-32768<32767 PRINT \"YES\"\n20 END",
        shown: "YES\n",
        ..PLAIN
    },
    Row {
        source: "10 PRINT \"A\";1/0\n20 END",
        shown: "A\n!2 AT 10\n",
        ..PLAIN
    },
    Row {
        source: "10 PRINT RND(10);RND(10)\n20 END",
        shown: "27\n",
        ..PLAIN
    },
    // Below bounds of a byte and of a word, from the option's state and from stored ones; the same bounds in a variable.
    Row {
        source: "10 PRINT RND(1);\" \";RND(2);\" \";RND(100);\" \";RND(255);\" \";RND(256);\" \";RND(1000);\" \";RND(32767)\n\
            20 END",
        shown: "0 1 96 125 42 259 32449\n",
        ..PLAIN
    },
    Row {
        source: "10 A=32767\n20 B=100\n30 C=256\n40 PRINT RND(A);\" \";RND(B);\" \";RND(C)\n50 END",
        seed: 65535,
        shown: "21445 97 10\n",
        ..PLAIN
    },
    Row {
        source: "10 PRINT RND(32767);\" \";RND(100);\" \";RND(256)\n20 END",
        seed: 256,
        shown: "2842 34 247\n",
        ..PLAIN
    },
    Row {
        source: "10 PRINT RND(0)",
        shown: "\n!3 AT 10\n",
        ..PLAIN
    },
    Row {
        source: "10 A=4\n20 GOTO 10*A\n30 PRINT \"NO\"\n40 END",
        ..PLAIN
    },
    Row {
        source: "10 A=5\n20 GOTO 10*A\n30 PRINT \"NO\"\n40 END",
        shown: "\n!1 AT 20\n",
        ..PLAIN
    },
    Row {
        source: "10 A=4\n20 GOTO 10-20\n30 PRINT \"NO\"\n40 END",
        shown: "\n!1 AT 20\n",
        said: "tbc: warning: line 20: no line -10\n",
        ..PLAIN
    },
    Row {
        source: "10 GOTO 99",
        shown: "\n!1 AT 10\n",
        said: "tbc: warning: line 10: no line 99\n",
        ..PLAIN
    },
    Row {
        source: "10 INPUT A\n20 GOTO 1\n30 GOSUB 2",
        status: 6,
        shown: "? ",
        said: "tbc: warning: line 20: no line 1\ntbc: warning: line 30: no line 2\ntbc: waits for a key\n",
        ..PLAIN
    },
    Row {
        keys: b"3, -4\r",
        shown: "? \n-1\n",
        ..TWO_INPUTS
    },
    Row {
        keys: b"70000,0\r",
        shown: "? \n4464\n",
        ..TWO_INPUTS
    },
    Row {
        keys: b"5\r",
        status: 6,
        shown: "? \n? ",
        said: "tbc: waits for a key\n",
        ..TWO_INPUTS
    },
    Row {
        keys: b"X",
        shown: "? \n!6 AT 10\n",
        ..TWO_INPUTS
    },
    Row {
        keys: b"\r",
        shown: "? \n!6 AT 10\n",
        ..TWO_INPUTS
    },
    Row {
        keys: b"1",
        status: 6,
        shown: "? ",
        said: "tbc: waits for a key\n",
        ..TWO_INPUTS
    },
    Row {
        source: "10 INPUT A\n20 INPUT B\n30 PRINT B\n40 END",
        keys: b"1,2\r",
        shown: "? \n2\n",
        ..PLAIN
    },
    Row {
        source: "10 A=A+1\n20 IF A=65 END\n30 GOSUB 10",
        ..PLAIN
    },
    Row {
        source: "10 A=A+1\n20 IF A=66 END\n30 GOSUB 10",
        ..PLAIN
    },
    Row {
        source: "10 A=A+1\n20 IF A=501 END\n30 GOSUB 10",
        ..PLAIN
    },
    Row {
        source: "10 A=A+1\n20 IF A=502 END\n30 GOSUB 10",
        shown: "\n!4 AT 30\n",
        ..PLAIN
    },
    Row {
        source: "10 RETURN",
        shown: "\n!5 AT 10\n",
        ..PLAIN
    },
    Row {
        source: "10 GOTO 30\n20 RETURN\n30 GOSUB 20",
        shown: "\n!7 AT 30\n",
        ..PLAIN
    },
    Row {
        source: "30 END\n10 PRINT 1\n10 PRINT 2\n20 PRINT 3\n20",
        shown: "2\n",
        ..PLAIN
    },
    Row {
        source: "5 GOTO100\n10 PRINT 1\n100 END",
        ..PLAIN
    },
    Row {
        source: "10 I=1\n20 IF I=I F=5\n30 PRINT F\n40 IF P=P REM\n50 END",
        shown: "5\n",
        ..PLAIN
    },
    Row {
        source: "10 PRINT 1+(1+(1+(1+(1+(1+(1+(1+(1+(1+(1+(1+(1+(1+(1+(1)))))))))))))))\n20 END",
        shown: "16\n",
        ..PLAIN
    },
    Row {
        source: "10 PRINT 1/0*0",
        shown: "\n!2 AT 10\n",
        ..PLAIN
    },
    Row {
        source: "10 PRINT 0*RND(0)",
        shown: "\n!3 AT 10\n",
        ..PLAIN
    },
    Row {
        source: "10 PRINT 0*RND(10);RND(10)\n20 END",
        shown: "07\n",
        ..PLAIN
    },
    Row {
        source: "10 IF 1=1 GOTO 10*3\n20 PRINT \"NO\"\n30 PRINT 6*7\n40 END",
        shown: "42\n",
        ..PLAIN
    },
    Row {
        source: "10 PRINT \"A\"",
        shown: "A\n\n!7 AT 10\n",
        ..PLAIN
    },
    Row {
        source: "10 LET A=-1\n20 PRINT \"\";A\n30 PRINT\n40 END",
        shown: "-1\n\n",
        ..PLAIN
    },
    Row {
        source: "10 REM a remark: ~{}\n20 pr \"a\"\n30 e n d",
        shown: "A\n",
        ..PLAIN
    },
    Row {
        answers: b"\x03",
        shown: "\n!0 AT 10\n",
        ..HELLO
    },
    Row {
        answers: b"A\x00\x03",
        shown: "HELLO\n",
        ..HELLO
    },
    Row {
        source: "10 PRINT \"A\";\n20 GOTO 10",
        answers: b"\x00\x00\x00\x03",
        shown: "AA\n!0 AT 20\n",
        ..PLAIN
    },
    Row {
        source: "10 PRINT \"A\"",
        answers: b"\x00\x03",
        shown: "A\n\n!7 AT 10\n",
        ..PLAIN
    },
    Row {
        source: "10 PRINT RND(10)\n20 END",
        seed: 39022,
        shown: "7\n",
        ..PLAIN
    },
    Row {
        source: "10 PRINT RND(10)\n20 END",
        seed: 0,
        shown: "9\n",
        ..PLAIN
    },
];

/// Short programs that come to an end or wait. The table is named here alone, since each function that names it takes
/// long to prove.
pub fn short_rows() -> &'static [Row<'static>] {
    &ROWS
}

/// All programs that come to an end or wait.
pub fn rows(alloc: Global, long: &LongSources) -> Result<Vec<Row<'_>>, Fail> {
    let mut rows = Vec::from_slice(alloc, short_rows())?;
    rows.extend_from_slice(&long.rows())?;
    Ok(rows)
}

fn append_end(alloc: Global, source: &mut String, line: u16) -> Result<(), Fail> {
    let text = format!(in alloc; "{line} END\n")?;
    Ok(source.push_str(text.as_str())?)
}

fn append_search(alloc: Global, source: &mut String) -> Result<(), Fail> {
    source.push_str("10 INPUT A\n20 GOTO A\n")?;
    for line in (30..3000u16).step_by(10) {
        append_end(alloc, source, line)?;
    }
    Ok(source.push_str("3000 PRINT \"Z\"")?)
}

fn append_largest(alloc: Global, source: &mut String) -> Result<(), Fail> {
    source.push_str("1 PRINT \"\"\n")?;
    for line in 2..1051u16 {
        append_end(alloc, source, line)?;
    }
    Ok(())
}

/// Sources that are too long to be written out.
#[derive(Drop)]
pub struct LongSources {
    /// Goes to the line that is typed, among the lines 30, 40, .. 3000.
    search: String,
    /// The largest program that compiles.
    largest: String,
}

impl LongSources {
    /// The long sources, written out. Fails only if memory runs out.
    pub fn new(alloc: Global) -> Result<LongSources, Fail> {
        let mut search = String::new(alloc);
        append_search(alloc, &mut search)?;
        let mut largest = String::new(alloc);
        append_largest(alloc, &mut largest)?;
        Ok(LongSources { search, largest })
    }

    /// Their rows.
    fn rows(&self) -> [Row<'_>; 8] {
        let jump = Row {
            source: self.search.as_str(),
            ..PLAIN
        };
        [
            Row {
                keys: b"3000\r",
                shown: "? \nZ\n\n!7 AT 3000\n",
                ..jump
            },
            Row {
                keys: b"30\r",
                shown: "? \n",
                ..jump
            },
            Row {
                keys: b"2990\r",
                shown: "? \n",
                ..jump
            },
            Row {
                keys: b"25\r",
                shown: "? \n\n!1 AT 20\n",
                ..jump
            },
            Row {
                keys: b"3001\r",
                shown: "? \n\n!1 AT 20\n",
                ..jump
            },
            Row {
                keys: b"0\r",
                shown: "? \n\n!1 AT 20\n",
                ..jump
            },
            Row {
                keys: b"-1\r",
                shown: "? \n\n!1 AT 20\n",
                ..jump
            },
            Row {
                source: self.largest.as_str(),
                shown: "\n",
                ..PLAIN
            },
        ]
    }
}
