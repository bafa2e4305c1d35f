//! Generated programs for each piece of code that was made faster: templates with words at the edges of the piece, and
//! with any words.
use crate::generated::programs::Case;
use crate::generated::trials::{both_agree, run_of};
use std::alloc::{AllocError, Global};
use std::process::Abort;
use std::test::Fail;
use tb_basic_meaning::RunEnd;

/// How many programs of a piece are tried.
const PROGRAMS: u16 = 500;

/// What stands for a word: at an edge, small, or any.
const WORD: u8 = b'#';

/// What stands for such a word that is a bound of RND.
const BOUND: u8 = b'$';

/// What stands for such a word other than 0.
const DIVISOR: u8 = b'%';

/// What stands for a word below 256.
const BYTE: u8 = b'?';

/// What stands for a relation.
const RELATION: u8 = b'~';

/// What stands for a power of two from 2 to 256.
const POWER: u8 = b'^';

/// What stands for a divisor below 1,024 that is no power of two.
const MULTIPLE: u8 = b'&';

/// What stands for the divisor chosen last.
const AGAIN: u8 = b'@';

const RELATIONS: [&str; 16] = [
    "=", "=", "=", "<>", "<>", "<>", "<", "<", "<", ">", ">", "<=", "<=", ">=", ">=", "><",
];

static POWERS: [u16; 16] = [2, 4, 8, 16, 32, 64, 128, 256, 2, 4, 8, 16, 32, 64, 128, 256];

static MULTIPLES: [u16; 16] = [
    3, 5, 7, 10, 31, 60, 100, 127, 129, 255, 257, 365, 511, 600, 1000, 1023,
];

/// What a piece's programs are made of.
struct Piece {
    source: &'static [u8],
    /// The words at its edges.
    edges: [u16; 16],
}

/// Quotients and remainders of words, and over 128 and 256; a division by 0 comes last.
const DIVIDING: Piece = Piece {
    source: b"10 A=#\n20 B=#\n30 C=#\n40 IF B=0 B=3\n50 IF C=0 C=B\n\
        60 PRINT A/B;\" \";A-A/B*B,C/B;\" \";A/C\n70 PRINT A/128;\" \";A/256,C/128;\" \";C/256\n\
        80 PRINT A/%;\" \";C/%,#/B\n90 IF A/B*B=A PRINT \"E\";\n100 D=A/C\n110 A=A+#\n120 B=D-B\n130 C=C+%\n\
        140 I=I+1\n150 IF I<4 GOTO 40\n160 A=A/256\n170 D=D/128\n\
        180 PRINT A,D;\" \";B/128-D/256\n190 PRINT C/A\n200 END\n",
    edges: [
        0, 1, 65535, 2, 10, 126, 127, 128, 129, 255, 256, 257, 32767, 32768, 65408, 65280,
    ],
};

/// Comparisons with 0, 1, bytes and any words, from either side, of variables, differences and sums.
const COMPARING: Piece = Piece {
    source: b"10 A=#\n20 B=#\n30 IF A~0 PRINT 1;\n40 IF 0~B PRINT 2;\n50 IF A~1 GOTO 70\n60 PRINT 3;\n\
        70 IF 1~A-B PRINT 4;\n80 IF B~# GOTO 100\n90 PRINT 5;\n100 IF A~? PRINT 6;\n110 IF ?~B PRINT 7;\n\
        120 IF A-B~0 GOTO 140\n130 PRINT 8;\n140 IF A+#~1 PRINT 9;\n150 IF A~-1 PRINT \"A\";\n160 IF A~B PRINT \"B\";\n\
        170 IF B~256 PRINT \"C\";\n180 IF #~A PRINT \"D\"\n190 A=A+#\n200 B=A-B\n210 I=I+1\n220 IF I<4 GOTO 30\n\
        230 PRINT A,B\n240 END\n",
    edges: [
        0, 1, 65535, 2, 65534, 127, 128, 129, 255, 256, 257, 32766, 32767, 32768, 32769, 65280,
    ],
};

/// Draws below constants and variables; a bound that may be a fault comes last.
const DRAWING: Piece = Piece {
    source: b"10 A=$\n20 B=$\n30 PRINT RND(A);\" \";RND($),RND(B)\n40 PRINT RND(100);RND(256),RND(1);RND(32767)\n\
        50 C=RND(A)+RND(B)*RND($)\n60 PRINT C-RND($),RND(?+1)\n70 A=RND(A)+1\n80 IF RND(B)>RND($) PRINT \"X\";\n\
        90 I=I+1\n100 IF I<4 GOTO 30\n110 PRINT RND(A+B)\n120 PRINT RND(#)\n130 END\n",
    edges: [
        1, 2, 3, 10, 99, 100, 127, 128, 129, 255, 256, 257, 1000, 16384, 32766, 32767,
    ],
};

/// Digits by division, which are added up, and the zones behind numbers.
const SPLITTING: Piece = Piece {
    source: b"10 A=#\n20 B=A\n30 C=B/10\n40 S=S+B-C*10\n50 PRINT B-C*10;\n60 B=C\n70 IF B<>0 GOTO 30\n\
        80 PRINT \" \";S,A;A,-A\n90 B=A-A/100*100\n100 PRINT B,A/7;A/127,A/100\n110 A=A+#\n120 I=I+1\n\
        130 IF I<4 GOTO 20\n140 END\n",
    edges: [
        0, 1, 9, 10, 99, 100, 127, 128, 255, 256, 1000, 9999, 10000, 32767, 32768, 65535,
    ],
};

/// Remainders by powers of two, and what looks like them.
const MASKING: Piece = Piece {
    source: b"10 A=#\n20 B=#\n30 PRINT A-A/^*@;\" \";B-B/^*@,A-A/4*4\n40 C=A-A/^*@\n50 B=B-B/^*@\n\
        60 PRINT A+C-C/^*@,B;\" \";A-A/^*@-B\n70 IF A-A/^*@=1 PRINT \"O\";\n80 IF A-A/^*@~0 PRINT \"N\";\n\
        90 D=A+B-(A+B)/^*@\n100 IF A/^*@~A PRINT \"E\";\n110 PRINT C,D;\" \";D-D/@*^\n120 A=A+#\n130 B=A-B+#\n\
        140 I=I+1\n150 IF I<4 GOTO 30\n160 A=A-A/^*@\n170 PRINT A,-A-A/^*@\n180 END\n",
    edges: [
        0, 1, 65535, 2, 3, 65533, 4, 65532, 127, 128, 255, 256, 257, 65280, 32767, 32768,
    ],
};

/// Remainders by constants whose multiples are taken away, and what looks like them.
const REDUCING: Piece = Piece {
    source: b"10 A=#\n20 B=#\n30 PRINT A-A/&*@;\" \";B-B/&*@,A-A/10*10\n40 C=A-A/&*@\n50 B=B-B/&*@\n\
        60 PRINT A+C-C/&*@,B;\" \";A-A/&*@-B\n70 IF A-A/&*@=1 PRINT \"O\";\n80 IF A-A/&*@~0 PRINT \"N\";\n\
        90 D=A+B-(A+B)/&*@\n100 PRINT C,D;\" \";D-D/@*&\n110 A=A-A/&*@\n120 A=A+#\n130 B=A-B+#\n\
        140 I=I+1\n150 IF I<4 GOTO 30\n160 A=A-A/&*@\n170 PRINT A,-A-A/&*@\n180 END\n",
    edges: [
        0, 1, 65535, 9, 10, 99, 127, 128, 255, 256, 1000, 1023, 32736, 65280, 32767, 32768,
    ],
};

/// Remainders of bytes by variables, with quotients around 4, and of words; a division by 0 comes last.
const SUBTRACTING: Piece = Piece {
    source: b"10 A=?\n20 B=?\n30 C=#\n40 IF B=0 B=3\n50 IF C=0 C=B\n60 PRINT A-A/B*B;\" \";A-A/C*C,C-C/B*B\n\
        70 D=A-A/B*B\n80 IF A-A/B*B=0 PRINT \"E\";\n90 C=C-C/B*B\n100 PRINT D,C\n110 A=D+4*B\n\
        120 PRINT A-A/B*B;\n130 A=A+B\n140 A=A-A/B*B\n150 PRINT A\n160 A=?\n170 B=B+?\n180 C=C+#\n\
        190 I=I+1\n200 IF I<4 GOTO 40\n210 A=A/128\n220 PRINT C-C/A*A\n230 END\n",
    edges: [
        0, 1, 2, 3, 4, 5, 10, 50, 51, 63, 64, 126, 127, 128, 254, 255,
    ],
};

/// Numbers of each length, and the zones behind them.
const SENDING: Piece = Piece {
    source: b"10 A=#\n20 B=#\n30 PRINT A;\" \";-A,B;\" \";-B\n40 PRINT A,B,#,-#\n50 PRINT A+B;A-B;\n\
        60 PRINT A+1;A-1;B*10\n70 A=A+?\n80 B=B-#\n90 I=I+1\n100 IF I<4 GOTO 30\n\
        110 PRINT 100*A;\" \";B/10,B\n120 END\n",
    edges: [
        0, 9, 10, 99, 100, 101, 255, 256, 767, 768, 769, 999, 1000, 9999, 10000, 32768,
    ],
};

/// Numbers drawn one after the other.
#[derive(Clone, Copy)]
pub struct Draws {
    state: u32,
}

impl Draws {
    /// Numbers that a seed determines.
    pub fn new(seed: u16) -> Draws {
        let mut draws = Draws {
            state: u32::from(seed),
        };
        draws.word();
        draws
    }

    /// Any word: of the state, the half that comes around last.
    pub fn word(&mut self) -> u16 {
        self.state = self
            .state
            .wrapping_mul(1_664_525)
            .wrapping_add(1_013_904_223);
        let [first, second, ..] = self.state.to_be_bytes();
        u16::from_be_bytes([first, second])
    }

    /// One of sixteen words.
    pub fn one_of(&mut self, words: &[u16; 16]) -> u16 {
        words[usize::from(self.word() / 4096)]
    }

    // A byte as a word, or its opposite.
    fn small(&mut self) -> u16 {
        let word = self.word();
        let byte = word % 256;
        if word < 32768 {
            byte
        } else {
            byte.wrapping_neg()
        }
    }

    /// A word: in half of the cases one of these, else a small one or any.
    pub fn near(&mut self, edges: &[u16; 16]) -> u16 {
        match self.word() / 16384 {
            0 => self.small(),
            1 => self.word(),
            _ => self.one_of(edges),
        }
    }
}

// The word that a symbol stands for, if it stands for one.
fn word_for(draws: &mut Draws, edges: &[u16; 16], symbol: u8, divisor: u16) -> Option<u16> {
    match symbol {
        WORD => Some(draws.near(edges)),
        BOUND => Some((draws.near(edges) % 32768).max(1)),
        DIVISOR => Some(draws.near(edges).max(1)),
        BYTE => Some(draws.near(edges) % 256),
        AGAIN => Some(divisor),
        _ => None,
    }
}

// The divisors that a symbol stands for, if it stands for some.
fn divisors_for(symbol: u8) -> Option<&'static [u16; 16]> {
    match symbol {
        POWER => Some(&POWERS),
        MULTIPLE => Some(&MULTIPLES),
        _ => None,
    }
}

// Appends what a symbol stands for. Notes the divisor chosen last.
fn push_for(
    alloc: Global,
    source: &mut Vec<u8>,
    draws: &mut Draws,
    piece: &Piece,
    symbol: u8,
    divisor: &mut u16,
) -> Result<(), AllocError> {
    let mut meant = symbol;
    if let Some(divisors) = divisors_for(symbol) {
        *divisor = draws.one_of(divisors);
        meant = AGAIN;
    }
    if symbol == RELATION {
        let relation = RELATIONS[usize::from(draws.word() / 4096)];
        source.extend_from_slice(relation.as_bytes())?;
    } else if let Some(word) = word_for(draws, &piece.edges, meant, *divisor) {
        source.extend_from_slice(format!(in alloc; "{word}")?.as_bytes())?;
    } else {
        source.push(symbol)?;
    }
    Ok(())
}

// A program of a piece, and what it is run on.
fn case_of(alloc: Global, piece: &Piece, index: u16) -> Result<Case, AllocError> {
    let mut draws = Draws::new(index);
    let mut source = Vec::new(alloc);
    let mut divisor = 2;
    for symbol in piece.source {
        push_for(alloc, &mut source, &mut draws, piece, *symbol, &mut divisor)?;
    }
    Ok(Case {
        source,
        seed: draws.near(&piece.edges),
        keys: Vec::new(alloc),
        answers: Vec::new(alloc),
    })
}

// Whether a program sends what its source sends. Counts those that come to their END.
fn is_the_sources(alloc: Global, case: &Case, ended: &mut u16) -> Result<bool, Fail> {
    let run = run_of(alloc, case)?;
    if run.end == RunEnd::Ended {
        *ended = ended.saturating_add(1);
    }
    Ok(both_agree(alloc, case, &run)?)
}

// The first program of a piece that sends something else. Counts those that come to their END.
fn first_strayed(alloc: Global, piece: &Piece, ended: &mut u16) -> Result<Option<Case>, Fail> {
    for index in 0..PROGRAMS {
        let case = case_of(alloc, piece, index)?;
        if !is_the_sources(alloc, &case, ended)? {
            return Ok(Some(case));
        }
    }
    Ok(None)
}

// Tries a piece's programs, of which so many at least come to their END.
fn try_piece<R: Abort + AllocGlobal>(rt: &R, piece: &Piece, least: u16) -> Result<(), Fail> {
    let mut ended = 0;
    let strayed = first_strayed(rt.alloc(), piece, &mut ended)?;
    assert!(rt; strayed.is_none(), "{strayed:?}");
    assert!(rt; least <= ended, "{ended}");
    Ok(())
}

#[test]
fn quotients_of_programs_are_their_sources(rt: HostRuntime) -> Result<(), Fail> {
    try_piece(&rt, &DIVIDING, 200)
}

#[test]
fn comparisons_of_programs_are_their_sources(rt: HostRuntime) -> Result<(), Fail> {
    try_piece(&rt, &COMPARING, PROGRAMS)
}

#[test]
fn draws_of_programs_are_their_sources(rt: HostRuntime) -> Result<(), Fail> {
    try_piece(&rt, &DRAWING, 200)
}

#[test]
fn digits_of_programs_are_their_sources(rt: HostRuntime) -> Result<(), Fail> {
    try_piece(&rt, &SPLITTING, PROGRAMS)
}

#[test]
fn lowest_bits_of_programs_are_their_sources(rt: HostRuntime) -> Result<(), Fail> {
    try_piece(&rt, &MASKING, PROGRAMS)
}

#[test]
fn multiples_of_programs_are_their_sources(rt: HostRuntime) -> Result<(), Fail> {
    try_piece(&rt, &REDUCING, PROGRAMS)
}

#[test]
fn differences_of_programs_are_their_sources(rt: HostRuntime) -> Result<(), Fail> {
    try_piece(&rt, &SUBTRACTING, 150)
}

#[test]
fn numbers_of_programs_are_their_sources(rt: HostRuntime) -> Result<(), Fail> {
    try_piece(&rt, &SENDING, PROGRAMS)
}
