//! The grammar of what is generated. A letter in lower case, `EDGE` or `SPELT` stands for one of the sixteen texts of its
//! rule, `AGAIN` for the divisor chosen last, and every other byte for itself. A text that should come up more often is
//! in its rule more than once.

/// What stands for the divisor that was chosen last.
pub const AGAIN: u8 = b'@';

/// The letter of the divisors that code is written for.
pub const DIVISOR: u8 = b'c';

/// What stands for a word at an edge of the order of words.
const EDGE: u8 = b'#';

/// What stands for a number at which one digit more, or another way to them, begins.
const SPELT: u8 = b'$';

/// What a case is made of.
pub struct Kind {
    /// The symbols of its source.
    pub source: &'static [u8],
    /// The symbols of what its polls answer.
    pub answers: &'static [u8],
}

/// A program of all sorts.
pub const ANY: Kind = Kind {
    source: b"p",
    answers: b"w",
};

/// A program of what has short code: the order of words and constants at the edges, whether a quotient leaves nothing,
/// remainders, steps, halves and doubles in place and after a calculation, products with constants, comparisons with
/// them, numbers of each length, computed jumps. What may be a fault, the division by any word and a jump to it, comes
/// last.
pub const SHORT: Kind = Kind {
    source: b"10 A=b\n20 B=b\n30 C=b\n40 D=b\n\
        41 IF A r # GOTO 43\n42 PRINT 1;\n43 IF # r B GOTO 45\n44 PRINT 2;\n\
        45 IF C r # PRINT 3;\n46 IF # r D PRINT 4;\n47 IF A-B r # PRINT 5;\n48 IF # r # PRINT 6\n\
        50 IF A/c*@=A GOTO 70\n60 x\n70 IF B/c*@<>B h\n80 IF C=C/c*@ THEN PRINT A;q\n90 IF z GOSUB 300\n\
        100 A=A+g\n110 B=B-g\n120 C=g+C\n122 D=A+B+g\n124 A=v*u-g\n126 C=(A-B)/2\n128 B=(C+D)*2\n130 D=D/2\n\
        140 PRINT q,A-A/c*@,v*n,n*v,v/u,v/c\n145 PRINT $;-$,$+A;\n\
        150 IF v r n GOTO 170\n160 x\n170 IF v r n THEN h\n180 B=2*B\n190 IF A r n GOTO 210\n200 C=q\n\
        210 GOSUB 300+0*v\n220 PRINT A,B,C,D\n230 Z=Z+1\n240 IF Z<3 GOTO 50\n\
        250 IF A/D*D r A GOTO 270\n260 PRINT A-A/D*D\n270 IF B=B/C*C PRINT C\n280 B=B-B/C*C\n290 PRINT B\n\
        292 IF z GOTO 296+256*v\n294 GOTO #+0*v\n295 END\n296 PRINT 7\n297 END\n\
        300 x\n310 IF z GOTO 330+0*v\n320 GOSUB 350\n330 GOSUB 350\n340 RETURN\n\
        350 h\n360 IF v r n RETURN\n370 PRINT v*u,u*v-v/u\n380 RETURN\n",
    answers: b"",
};

/// The letter of the statements of large programs, and of those that are shorter, so that more of them fit.
pub const LARGE: u8 = b'_';

pub const LEAN: u8 = b'^';

/// What stands in these statements for the number of a line that is farther on.
pub const AHEAD: u8 = b'~';

/// What comes before the statements of a large program.
pub const LARGE_HEAD: &[u8] = b"1 A=b\n2 B=b\n3 C=b\n4 D=b\n";

/// What comes after them: the way back to the first one, and a routine that they call.
pub const LARGE_TAIL: &[u8] =
    b"20000 E=E+1\n20010 PRINT A,B,C,D\n20020 IF E<3 GOTO 10\n20030 INPUT D\n20040 PRINT D\n\
    20050 END\n30000 x\n30010 IF v r n RETURN\n30020 h\n30030 PRINT v;\n30040 RETURN\n";

/// Nine lines in order.
const STRAIGHT: &[u8] = b"10 s\n20 s\n30 s\n40 s\n50 s\n60 s\n70 s\n80 s\n90 s\n";

/// Lines out of order, of which some are replaced and one is deleted.
const REPLACED: &[u8] = b"90 s\n50 s\n10 s\n20 s\n50 s\n10 s\n20\n40 s\n30 s\n";

/// A counted loop.
const COUNTED: &[u8] =
    b"10 D=f\n20 s\n30 s\n40 PRINT l\n50 s\n60 D=D+1\n70 IF D<n GOTO 20\n80 s\n90 END\n";

/// A subroutine that is called from two lines.
const CALLED: &[u8] =
    b"10 s\n20 GOSUB 70\n30 s\n40 GOSUB 70\n50 s\n60 END\n70 s\n80 s\n90 RETURN\n";

/// Calls that do not return.
const NESTED: &[u8] = b"10 s\n20 A=A+1\n30 GOSUB 10\n";

const PROGRAM: [&[u8]; 16] = [
    STRAIGHT, STRAIGHT, STRAIGHT, STRAIGHT, STRAIGHT, STRAIGHT, REPLACED, REPLACED, COUNTED,
    COUNTED, COUNTED, COUNTED, CALLED, CALLED, CALLED, NESTED,
];

const STATEMENT: [&[u8]; 16] = [
    b"v=e",
    b"v=e",
    b"LET v=e",
    b"PRINT l",
    b"PRINT l",
    b"PRINT l",
    b"PRINT l",
    b"PR l",
    b"IF e r e s",
    b"IF e r e THEN s",
    b"IF v r n THEN s",
    b"INPUT v",
    b"INPUT v,v",
    b"GOTO j",
    b"GOSUB j",
    b"o",
];

const OTHER_STATEMENT: [&[u8]; 16] = [
    b"PRINT",
    b"PRINT",
    b"PRINT",
    b"END",
    b"END",
    b"RETURN",
    b"RETURN",
    b"RETURN",
    b"RETURN",
    b"REM",
    b"REM",
    b"REM 1/0",
    b"INPUT v,v,v",
    b"INPUT v,v,v",
    b"IF e r e IF e r e THEN IF v r n s",
    b"IF e r e IF e r e THEN IF v r n s",
];

const JUMP: [&[u8]; 16] = [
    b"10",
    b"20",
    b"30",
    b"40",
    b"50",
    b"60",
    b"70",
    b"80",
    b"90",
    b"80+10",
    b"10*(1+RND(9))",
    b"10*(1+RND(9))",
    b"70+10*v",
    b"45",
    b"10-20",
    b"e",
];

const LIST: [&[u8]; 16] = [
    b"i", b"i", b"i", b"i", b"i;", b"i;", b"i,", b"i,", b"i;i", b"i;i", b"i,i", b"i,i", b"i,i;i",
    b"i;i,i", b"i;i;i;", b"i,i,i,",
];

const ITEM: [&[u8]; 16] = [
    b"e",
    b"e",
    b"e",
    b"e",
    b"e",
    b"e",
    b"v",
    b"v",
    b"v",
    b"v",
    b"\"\"",
    b"\"AB\"",
    b"\"C=\"",
    b"\"1,2;3\"",
    b"\"1234567\"",
    b"\"12345678\"",
];

const EXPRESSION: [&[u8]; 16] = [
    b"t", b"t", b"t", b"t", b"t", b"t", b"t", b"-t", b"-t", b"+t", b"t+t", b"t+t", b"t-t", b"t-t",
    b"t+t-t", b"-t-t+t",
];

const TERM: [&[u8]; 16] = [
    b"f", b"f", b"f", b"f", b"f", b"f", b"f", b"f", b"f", b"f", b"f*f", b"f*f", b"f*f", b"f/m",
    b"f/m", b"f*f/m*f",
];

const FACTOR: [&[u8]; 16] = [
    b"n", b"n", b"n", b"n", b"n", b"v", b"v", b"v", b"v", b"v", b"v", b"(e)", b"(e)", b"(e)",
    b"RND(m)", b"d",
];

const NUMBER: [&[u8]; 16] = [
    b"0", b"1", b"2", b"3", b"4", b"5", b"7", b"8", b"10", b"100", b"255", b"256", b"1000",
    b"32767", b"32768", b"65535",
];

/// A factor that may be a fault.
const DARING_FACTOR: [&[u8]; 16] = [
    b"RND(m)", b"RND(m)", b"RND(m)", b"RND(m)", b"RND(m)", b"RND(m)", b"(e/m)", b"(e/m)", b"(e/m)",
    b"(e/m)", b"(e/m)", b"(e/f)", b"(f/f)", b"(f/n)", b"RND(n)", b"RND(e)",
];

const BOUND: [&[u8]; 16] = [
    b"1", b"2", b"3", b"4", b"5", b"6", b"7", b"8", b"9", b"10", b"30", b"100", b"255", b"256",
    b"1000", b"32767",
];

const VARIABLE: [&[u8]; 16] = [
    b"A", b"A", b"A", b"A", b"A", b"A", b"B", b"B", b"B", b"B", b"C", b"C", b"C", b"D", b"D", b"Z",
];

const RELATION: [&[u8]; 16] = [
    b"=", b"=", b"=", b"<", b"<", b"<", b">", b">", b"<=", b"<=", b">=", b">=", b"<>", b"<>",
    b"><", b"><",
];

const KEYBOARD: [&[u8]; 16] = [
    b"",
    b"k",
    b"kk",
    b"kkk",
    b"kkk",
    b"kkkk",
    b"kkkk",
    b"kkkk",
    b"kkkkkk",
    b"kkkkkk",
    b"kkkkkk",
    b"kkkkkk",
    b"kkkkkkkk",
    b"kkkkkkkk",
    b"kkkkkkkkkkkk",
    b"kkkkkkkkkkkkkkkkkkkk",
];

const KEYS: [&[u8]; 16] = [
    b"n\r", b"n\r", b"n\r", b"n\r", b"n,", b"n,", b"n,", b"-n\r", b"-n,", b"+n\r", b" n , ",
    b"- 1 2\r", b"70000\r", b"n,n\r", b"n", b"X",
];

const POLLED: [&[u8]; 16] = [
    b"",
    b"",
    b"",
    b"",
    b"",
    b"",
    b"",
    b"",
    b"",
    b"",
    b"",
    b"aaa\x03",
    b"aaaa",
    b"aaaaaaaa",
    b"aaaaaaaaaaaaaaaa",
    b"aaaaaaaaaaaaaaaaaaaaaaaaaaaaaaaa",
];

const ANSWER: [&[u8]; 16] = [
    b"\0", b"\0", b"\0", b"\0", b"\0", b"\0", b"\0", b"\0", b"\0", b"\0", b"\0", b"\0", b"\0",
    b"A", b"\x0d", b"\x03",
];

/// A word that is on the edge of something, or any.
const WORD: [&[u8]; 16] = [
    b"0",
    b"1",
    b"-1",
    b"2",
    b"-2",
    b"127",
    b"128",
    b"255",
    b"256",
    b"32767",
    b"32768",
    b"n",
    b"-n",
    b"RND(32767)",
    b"-RND(32767)",
    b"n*RND(m)",
];

const WORD_AT_EDGE: [&[u8]; 16] = [
    b"0", b"0", b"1", b"1", b"-1", b"-1", b"2", b"-2", b"255", b"256", b"-256", b"32766", b"32767",
    b"32767", b"32768", b"-32768",
];

const NUMBER_AT_LENGTH: [&[u8]; 16] = [
    b"0", b"9", b"10", b"99", b"100", b"255", b"256", b"767", b"768", b"999", b"1000", b"9999",
    b"10000", b"25600", b"30000", b"32767",
];

const CONSTANT_DIVISOR: [&[u8]; 16] = [
    b"1", b"2", b"3", b"4", b"7", b"10", b"64", b"100", b"128", b"256", b"300", b"32767", b"32768",
    b"65535", b"(-1)", b"(-2)",
];

/// Whether a quotient leaves nothing, and what looks like that.
const EXACT: [&[u8]; 16] = [
    b"A/c*@=A",
    b"A/c*@=A",
    b"A/c*@<>A",
    b"A/c*@<>A",
    b"B=B/c*@",
    b"B<>B/c*@",
    b"B/c*@><B",
    b"C/c*@rC",
    b"CrC/c*@",
    b"D/c*@rD",
    b"A-A/c*@=0",
    b"B-B/c*@rn",
    b"A+B=(A+B)/c*@",
    b"c*(A/@)=A",
    b"A/c*c=A",
    b"A/c*@=B",
];

/// A remainder, and what looks like one.
const REMAINDER: [&[u8]; 16] = [
    b"A-A/c*@",
    b"A-A/c*@",
    b"B-B/c*@",
    b"B-B/c*@",
    b"C-C/c*@",
    b"D-D/c*@",
    b"B-B/c*@+A",
    b"A+B-B/c*@",
    b"A+B-(A+B)/c*@",
    b"C*(A-A/c*@)",
    b"A-A/c*@-(B-B/@*@)",
    b"A-c*(A/@)",
    b"A-(A/c*@)",
    b"A/c*@-A",
    b"A-A/c*c",
    b"A-B/c*@",
];

const STEP: [&[u8]; 16] = [
    b"A=A+g", b"A=A+g", b"A=A-g", b"A=A-g", b"A=g+A", b"A=g-A", b"B=B+g", b"B=B-g", b"B=g+B",
    b"B=A+g", b"C=C+1", b"C=C-1", b"D=D+g", b"D=D-g", b"D=g+D", b"D=B-g",
];

const STEP_CONSTANT: [&[u8]; 16] = [
    b"1", b"1", b"1", b"2", b"10", b"127", b"128", b"255", b"256", b"257", b"512", b"32767",
    b"32768", b"65280", b"65534", b"65535",
];

/// A half or a double, in place or not.
const HALF: [&[u8]; 16] = [
    b"A=A/2", b"A=A/2", b"A=A*2", b"A=2*A", b"A=A+A", b"B=B/2", b"B=B*2", b"B=2*B", b"B=A/2",
    b"B=A*2", b"C=C/2", b"C=C*2", b"D=D/2", b"D=2*D", b"A=A/u", b"A=A*u",
];

const POWER: [&[u8]; 16] = [
    b"2", b"2", b"4", b"4", b"8", b"8", b"16", b"16", b"32", b"32", b"64", b"64", b"128", b"256",
    b"512", b"16384",
];

/// Short statements that seldom fault, with jumps ahead.
const LARGE_STATEMENT: [&[u8]; 16] = [
    b"x",
    b"x",
    b"x",
    b"h",
    b"v=v+n",
    b"v=v-v",
    b"v=q",
    b"v=e",
    b"PRINT v;",
    b"PRINT \"AB\",v",
    b"IF v r n x",
    b"IF v r v GOTO ~",
    b"IF v r n GOTO ~",
    b"IF z GOTO ~",
    b"GOTO ~+0*v",
    b"GOSUB 30000",
];

const LEAN_STATEMENT: [&[u8]; 16] = [
    b"x",
    b"x",
    b"x",
    b"A=2*A",
    b"B=-B",
    b"v=n",
    b"v=v",
    b"v=v-v",
    b"v=n-v",
    b"PRINT v;",
    b"PRINT \"AB\";",
    b"IF v r 0 x",
    b"IF v<0 GOTO ~",
    b"IF v r n GOTO ~",
    b"GOTO ~",
    b"REM",
];

/// What a letter stands for, if it has a rule.
pub fn rule(letter: u8) -> Option<&'static [&'static [u8]; 16]> {
    match letter {
        b'p' => Some(&PROGRAM),
        b's' => Some(&STATEMENT),
        b'o' => Some(&OTHER_STATEMENT),
        b'j' => Some(&JUMP),
        b'l' => Some(&LIST),
        b'i' => Some(&ITEM),
        b'e' => Some(&EXPRESSION),
        b't' => Some(&TERM),
        b'f' => Some(&FACTOR),
        b'd' => Some(&DARING_FACTOR),
        b'n' => Some(&NUMBER),
        b'm' => Some(&BOUND),
        b'v' => Some(&VARIABLE),
        b'r' => Some(&RELATION),
        b'y' => Some(&KEYBOARD),
        b'k' => Some(&KEYS),
        b'w' => Some(&POLLED),
        b'a' => Some(&ANSWER),
        b'b' => Some(&WORD),
        DIVISOR => Some(&CONSTANT_DIVISOR),
        EDGE => Some(&WORD_AT_EDGE),
        SPELT => Some(&NUMBER_AT_LENGTH),
        b'z' => Some(&EXACT),
        b'q' => Some(&REMAINDER),
        b'x' => Some(&STEP),
        b'g' => Some(&STEP_CONSTANT),
        b'h' => Some(&HALF),
        b'u' => Some(&POWER),
        LARGE => Some(&LARGE_STATEMENT),
        LEAN => Some(&LEAN_STATEMENT),
        _ => None,
    }
}
