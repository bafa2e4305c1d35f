//! Worked rows at the edges of the words for which code was made faster: what is typed, and what is shown. Quotients,
//! comparisons, draws, digits, remainders by powers of two and other constants, numbers of each length, texts, and
//! computed jumps.
use crate::jumps::shows;
use crate::limits::row_searches;
use crate::rows::{PLAIN, Row};
use std::alloc::{AllocError, Global};
use std::process::Abort;
use std::test::Fail;

/// What is typed into a program, and what it shows after the question.
type Typed = (&'static str, &'static str);

// A quotient and its remainder, and whether that is 0.
const DIVIDING: &str =
    "10 INPUT A,B\n20 PRINT A/B;\" \";A-A/B*B\n30 IF A/B*B=A PRINT \"E\"\n40 END";

// Of each sign and size: bytes over bytes, also about four times them, words over bytes, words over words.
static DIVIDED: [Typed; 79] = [
    ("0,1\r", "0 0\nE\n"),
    ("0,-1\r", "0 0\nE\n"),
    ("0,32767\r", "0 0\nE\n"),
    ("0,-32768\r", "0 0\nE\n"),
    ("1,1\r", "1 0\nE\n"),
    ("1,-1\r", "-1 0\nE\n"),
    ("-1,1\r", "-1 0\nE\n"),
    ("-1,-1\r", "1 0\nE\n"),
    ("1,127\r", "0 1\n"),
    ("-1,128\r", "0 -1\n"),
    ("127,1\r", "127 0\nE\n"),
    ("127,127\r", "1 0\nE\n"),
    ("127,128\r", "0 127\n"),
    ("128,127\r", "1 1\n"),
    ("128,-128\r", "-1 0\nE\n"),
    ("-128,128\r", "-1 0\nE\n"),
    ("-128,127\r", "-1 -1\n"),
    ("255,127\r", "2 1\n"),
    ("255,128\r", "1 127\n"),
    ("255,255\r", "1 0\nE\n"),
    ("255,256\r", "0 255\n"),
    ("256,127\r", "2 2\n"),
    ("256,128\r", "2 0\nE\n"),
    ("256,255\r", "1 1\n"),
    ("256,-256\r", "-1 0\nE\n"),
    ("-255,256\r", "0 -255\n"),
    ("-256,255\r", "-1 -1\n"),
    ("32512,127\r", "256 0\nE\n"),
    ("32511,127\r", "255 126\n"),
    ("32767,1\r", "32767 0\nE\n"),
    ("32767,-1\r", "-32767 0\nE\n"),
    ("32767,2\r", "16383 1\n"),
    ("32767,127\r", "258 1\n"),
    ("32767,128\r", "255 127\n"),
    ("32767,-129\r", "-254 1\n"),
    ("32767,255\r", "128 127\n"),
    ("32767,256\r", "127 255\n"),
    ("32767,-257\r", "-127 128\n"),
    ("32767,32767\r", "1 0\nE\n"),
    ("32767,-32768\r", "0 32767\n"),
    ("-32767,127\r", "-258 -1\n"),
    ("-32767,32767\r", "-1 0\nE\n"),
    ("-32768,1\r", "-32768 0\nE\n"),
    ("-32768,-1\r", "-32768 0\nE\n"),
    ("-32768,2\r", "-16384 0\nE\n"),
    ("-32768,-127\r", "258 -2\n"),
    ("-32768,127\r", "-258 -2\n"),
    ("-32768,128\r", "-256 0\nE\n"),
    ("-32768,-128\r", "256 0\nE\n"),
    ("-32768,255\r", "-128 -128\n"),
    ("-32768,256\r", "-128 0\nE\n"),
    ("-32768,-256\r", "128 0\nE\n"),
    ("-32768,32767\r", "-1 -1\n"),
    ("-32768,-32768\r", "1 0\nE\n"),
    ("3,1\r", "3 0\nE\n"),
    ("4,1\r", "4 0\nE\n"),
    ("5,1\r", "5 0\nE\n"),
    ("1,255\r", "0 1\n"),
    ("19,4\r", "4 3\n"),
    ("20,4\r", "5 0\nE\n"),
    ("16,4\r", "4 0\nE\n"),
    ("15,4\r", "3 3\n"),
    ("24,5\r", "4 4\n"),
    ("25,5\r", "5 0\nE\n"),
    ("254,51\r", "4 50\n"),
    ("255,51\r", "5 0\nE\n"),
    ("255,64\r", "3 63\n"),
    ("254,63\r", "4 2\n"),
    ("252,63\r", "4 0\nE\n"),
    ("256,64\r", "4 0\nE\n"),
    ("255,85\r", "3 0\nE\n"),
    ("-20,4\r", "-5 0\nE\n"),
    ("-19,4\r", "-4 -3\n"),
    ("20,-4\r", "-5 0\nE\n"),
    ("0,0\r", "\n!2 AT 20\n"),
    ("1,0\r", "\n!2 AT 20\n"),
    ("-1,0\r", "\n!2 AT 20\n"),
    ("32767,0\r", "\n!2 AT 20\n"),
    ("-32768,0\r", "\n!2 AT 20\n"),
];

// Quotients over 128 and 256, of the word, its opposite and the next one.
const OVER_BYTES: &str =
    "10 INPUT A\n20 PRINT A/128;\" \";A/256;\" \";-A/128;\" \";(A+1)/256\n30 END";

// Words about the multiples.
static QUOTIENTS: [Typed; 19] = [
    ("0\r", "0 0 0 0\n"),
    ("1\r", "0 0 0 0\n"),
    ("-1\r", "0 0 0 0\n"),
    ("127\r", "0 0 0 0\n"),
    ("-127\r", "0 0 0 0\n"),
    ("128\r", "1 0 -1 0\n"),
    ("-128\r", "-1 0 1 0\n"),
    ("255\r", "1 0 -1 1\n"),
    ("-255\r", "-1 0 1 0\n"),
    ("256\r", "2 1 -2 1\n"),
    ("-256\r", "-2 -1 2 0\n"),
    ("32767\r", "255 127 -255 -128\n"),
    ("-32767\r", "-255 -127 255 -127\n"),
    ("-32768\r", "-256 -128 256 -127\n"),
    ("129\r", "1 0 -1 0\n"),
    ("-129\r", "-1 0 1 0\n"),
    ("32639\r", "254 127 -254 127\n"),
    ("32640\r", "255 127 -255 127\n"),
    ("-32640\r", "-255 -127 255 -127\n"),
];

// The letters of the relations that hold: A to F to 0, G to L to 1.
const AGAINST_ONE: &str = "10 INPUT A\n20 IF A=0 PRINT \"A\";\n30 IF A<>0 PRINT \"B\";\n\
    40 IF A<0 PRINT \"C\";\n50 IF A>0 PRINT \"D\";\n60 IF A<=0 PRINT \"E\";\n\
    70 IF A>=0 PRINT \"F\";\n80 IF A=1 PRINT \"G\";\n90 IF A<>1 PRINT \"H\";\n\
    100 IF A<1 PRINT \"I\";\n110 IF A>1 PRINT \"J\";\n120 IF A<=1 PRINT \"K\";\n\
    130 IF A>=1 PRINT \"L\";\n140 PRINT\n150 END";

// The same with the constant first.
const ONE_AGAINST: &str = "10 INPUT A\n20 IF 0=A PRINT \"A\";\n30 IF 0<>A PRINT \"B\";\n\
    40 IF 0>A PRINT \"C\";\n50 IF 0<A PRINT \"D\";\n60 IF 0>=A PRINT \"E\";\n\
    70 IF 0<=A PRINT \"F\";\n80 IF 1=A PRINT \"G\";\n90 IF 1<>A PRINT \"H\";\n\
    100 IF 1>A PRINT \"I\";\n110 IF 1<A PRINT \"J\";\n120 IF 1>=A PRINT \"K\";\n\
    130 IF 1<=A PRINT \"L\";\n140 PRINT\n150 END";

// Words about 0 and 1.
static SMALL: [Typed; 16] = [
    ("0\r", "AEFHIK\n"),
    ("1\r", "BDFGKL\n"),
    ("-1\r", "BCEHIK\n"),
    ("127\r", "BDFHJL\n"),
    ("-127\r", "BCEHIK\n"),
    ("128\r", "BDFHJL\n"),
    ("-128\r", "BCEHIK\n"),
    ("255\r", "BDFHJL\n"),
    ("-255\r", "BCEHIK\n"),
    ("256\r", "BDFHJL\n"),
    ("-256\r", "BCEHIK\n"),
    ("32767\r", "BDFHJL\n"),
    ("-32767\r", "BCEHIK\n"),
    ("-32768\r", "BCEHIK\n"),
    ("2\r", "BDFHJL\n"),
    ("-2\r", "BCEHIK\n"),
];

// The same for 127, 255 and 256.
const AGAINST_BYTES: &str = "10 INPUT A\n20 IF A=127 PRINT \"A\";\n30 IF A<>127 PRINT \"B\";\n\
    40 IF A<127 PRINT \"C\";\n50 IF A>127 PRINT \"D\";\n\
    60 IF A<=127 PRINT \"E\";\n70 IF A>=127 PRINT \"F\";\n\
    80 IF A=255 PRINT \"G\";\n90 IF A<>255 PRINT \"H\";\n\
    100 IF A<255 PRINT \"I\";\n110 IF A>255 PRINT \"J\";\n\
    120 IF A<=255 PRINT \"K\";\n130 IF A>=255 PRINT \"L\";\n\
    140 IF A=256 PRINT \"M\";\n150 IF A<>256 PRINT \"N\";\n\
    160 IF A<256 PRINT \"O\";\n170 IF A>256 PRINT \"P\";\n\
    180 IF A<=256 PRINT \"Q\";\n190 IF A>=256 PRINT \"R\";\n200 PRINT\n210 END";

// The same with the constant first.
const BYTES_AGAINST: &str = "10 INPUT A\n20 IF 127=A PRINT \"A\";\n30 IF 127<>A PRINT \"B\";\n\
    40 IF 127>A PRINT \"C\";\n50 IF 127<A PRINT \"D\";\n\
    60 IF 127>=A PRINT \"E\";\n70 IF 127<=A PRINT \"F\";\n\
    80 IF 255=A PRINT \"G\";\n90 IF 255<>A PRINT \"H\";\n\
    100 IF 255>A PRINT \"I\";\n110 IF 255<A PRINT \"J\";\n\
    120 IF 255>=A PRINT \"K\";\n130 IF 255<=A PRINT \"L\";\n\
    140 IF 256=A PRINT \"M\";\n150 IF 256<>A PRINT \"N\";\n\
    160 IF 256>A PRINT \"O\";\n170 IF 256<A PRINT \"P\";\n\
    180 IF 256>=A PRINT \"Q\";\n190 IF 256<=A PRINT \"R\";\n200 PRINT\n210 END";

// Words about these.
static BYTES: [Typed; 19] = [
    ("0\r", "BCEHIKNOQ\n"),
    ("1\r", "BCEHIKNOQ\n"),
    ("-1\r", "BCEHIKNOQ\n"),
    ("127\r", "AEFHIKNOQ\n"),
    ("-127\r", "BCEHIKNOQ\n"),
    ("128\r", "BDFHIKNOQ\n"),
    ("-128\r", "BCEHIKNOQ\n"),
    ("255\r", "BDFGKLNOQ\n"),
    ("-255\r", "BCEHIKNOQ\n"),
    ("256\r", "BDFHJLMQR\n"),
    ("-256\r", "BCEHIKNOQ\n"),
    ("32767\r", "BDFHJLNPR\n"),
    ("-32767\r", "BCEHIKNOQ\n"),
    ("-32768\r", "BCEHIKNOQ\n"),
    ("126\r", "BCEHIKNOQ\n"),
    ("254\r", "BDFHIKNOQ\n"),
    ("257\r", "BDFHJLNPR\n"),
    ("383\r", "BDFHJLNPR\n"),
    ("511\r", "BDFHJLNPR\n"),
];

// Three draws below a bound, from the state 1.
const DRAWING: &str = "10 INPUT A\n20 PRINT RND(A);\" \";RND(A);\" \";RND(A)\n30 END";

// Bounds, of which those below 1 are a fault.
static BOUNDS: [Typed; 15] = [
    ("0\r", "\n!3 AT 20\n"),
    ("1\r", "0 0 0\n"),
    ("-1\r", "\n!3 AT 20\n"),
    ("2\r", "0 1 0\n"),
    ("127\r", "33 0 3\n"),
    ("128\r", "110 31 100\n"),
    ("129\r", "64 70 72\n"),
    ("255\r", "7 142 51\n"),
    ("256\r", "110 159 228\n"),
    ("257\r", "215 178 150\n"),
    ("32766\r", "6256 28321 20196\n"),
    ("32767\r", "6255 28320 20196\n"),
    ("-32768\r", "\n!3 AT 20\n"),
    ("-127\r", "\n!3 AT 20\n"),
    ("-256\r", "\n!3 AT 20\n"),
];

// The first draws of a state, below a word, a page, a byte and 1.
const FIRST_DRAWS: &str = "10 PRINT RND(32767);\" \";RND(256);\" \";RND(100);\" \";RND(1)\n20 END";

// States, and what they show.
static STATES: [(u16, &str); 12] = [
    (0, "13849 102 23 0\n"),
    (1, "6255 159 96 0\n"),
    (127, "32325 173 50 0\n"),
    (128, "24729 230 59 0\n"),
    (255, "10436 45 86 0\n"),
    (256, "2842 102 59 0\n"),
    (32767, "21444 45 82 0\n"),
    (32768, "13850 102 91 0\n"),
    (32769, "6254 159 64 0\n"),
    (65280, "24858 102 87 0\n"),
    (65408, "2969 230 87 0\n"),
    (65535, "21445 45 50 0\n"),
];

// A word's digits from the last one on, their sum, and the zones behind these numbers.
const SPLITTING: &str = "10 INPUT A\n20 B=A\n30 C=B/10\n40 S=S+B-C*10\n50 PRINT B-C*10;\n60 B=C\n\
    70 IF B<>0 GOTO 30\n80 PRINT \" \";S,A;A,S\n90 END";

// Words of each length.
static DIGITS: [Typed; 27] = [
    ("0\r", "0 0     00      0\n"),
    ("1\r", "1 1     11      1\n"),
    ("-1\r", "-1 -1   -1-1    -1\n"),
    ("127\r", "721 10  127127  10\n"),
    ("-127\r", "-7-2-1 -10      -127-127        -10\n"),
    ("128\r", "821 11  128128  11\n"),
    ("-128\r", "-8-2-1 -11      -128-128        -11\n"),
    ("255\r", "552 12  255255  12\n"),
    ("-255\r", "-5-5-2 -12      -255-255        -12\n"),
    ("256\r", "652 13  256256  13\n"),
    ("-256\r", "-6-5-2 -13      -256-256        -13\n"),
    ("32767\r", "76723 25        3276732767      25\n"),
    ("-32767\r", "-7-6-7-2-3 -25  -32767-32767    -25\n"),
    ("-32768\r", "-8-6-7-2-3 -26  -32768-32768    -26\n"),
    ("9\r", "9 9     99      9\n"),
    ("10\r", "01 1    1010    1\n"),
    ("99\r", "99 18   9999    18\n"),
    ("100\r", "001 1   100100  1\n"),
    ("101\r", "101 2   101101  2\n"),
    ("767\r", "767 20  767767  20\n"),
    ("768\r", "867 21  768768  21\n"),
    ("769\r", "967 22  769769  22\n"),
    ("999\r", "999 27  999999  27\n"),
    ("1000\r", "0001 1  10001000        1\n"),
    ("9999\r", "9999 36 99999999        36\n"),
    ("10000\r", "00001 1 1000010000      1\n"),
    ("-10\r", "0-1 -1  -10-10  -1\n"),
];

// What is left over 2, 4, .. 256.
const MASKING: &str = "10 INPUT A\n20 PRINT A-A/2*2;\" \";\n30 PRINT A-A/4*4;\" \";\n\
    40 PRINT A-A/8*8;\" \";\n50 PRINT A-A/16*16;\" \";\n\
    60 PRINT A-A/32*32;\" \";\n70 PRINT A-A/64*64;\" \";\n\
    80 PRINT A-A/128*128;\" \";\n90 PRINT A-A/256*256\n100 END";

// Words of each sign.
static LOWEST_BITS: [Typed; 24] = [
    ("0\r", "0 0 0 0 0 0 0 0\n"),
    ("1\r", "1 1 1 1 1 1 1 1\n"),
    ("-1\r", "-1 -1 -1 -1 -1 -1 -1 -1\n"),
    ("127\r", "1 3 7 15 31 63 127 127\n"),
    ("-127\r", "-1 -3 -7 -15 -31 -63 -127 -127\n"),
    ("128\r", "0 0 0 0 0 0 0 128\n"),
    ("-128\r", "0 0 0 0 0 0 0 -128\n"),
    ("255\r", "1 3 7 15 31 63 127 255\n"),
    ("-255\r", "-1 -3 -7 -15 -31 -63 -127 -255\n"),
    ("256\r", "0 0 0 0 0 0 0 0\n"),
    ("-256\r", "0 0 0 0 0 0 0 0\n"),
    ("32767\r", "1 3 7 15 31 63 127 255\n"),
    ("-32767\r", "-1 -3 -7 -15 -31 -63 -127 -255\n"),
    ("-32768\r", "0 0 0 0 0 0 0 0\n"),
    ("2\r", "0 2 2 2 2 2 2 2\n"),
    ("3\r", "1 3 3 3 3 3 3 3\n"),
    ("-2\r", "0 -2 -2 -2 -2 -2 -2 -2\n"),
    ("-3\r", "-1 -3 -3 -3 -3 -3 -3 -3\n"),
    ("4\r", "0 0 4 4 4 4 4 4\n"),
    ("-4\r", "0 0 -4 -4 -4 -4 -4 -4\n"),
    ("5\r", "1 1 5 5 5 5 5 5\n"),
    ("-5\r", "-1 -1 -5 -5 -5 -5 -5 -5\n"),
    ("85\r", "1 1 5 5 21 21 85 85\n"),
    ("-86\r", "0 -2 -6 -6 -22 -22 -86 -86\n"),
];

// What is left over constants whose multiples are taken away.
const REDUCING: &str = "10 INPUT A\n20 PRINT A-A/3*3;\" \";\n30 PRINT A-A/5*5;\" \";\n\
    40 PRINT A-A/10*10;\" \";\n50 PRINT A-A/100*100;\" \";\n60 PRINT A-A/127*127;\" \";\n\
    70 PRINT A-A/129*129;\" \";\n80 PRINT A-A/255*255;\" \";\n90 PRINT A-A/257*257;\" \";\n\
    100 PRINT A-A/511*511;\" \";\n110 PRINT A-A/1000*1000;\" \";\n120 PRINT A-A/1023*1023\n\
    130 END";

// Words of each sign, and about the divisors and their largest multiples.
static MULTIPLES: [Typed; 35] = [
    ("0\r", "0 0 0 0 0 0 0 0 0 0 0\n"),
    ("1\r", "1 1 1 1 1 1 1 1 1 1 1\n"),
    ("-1\r", "-1 -1 -1 -1 -1 -1 -1 -1 -1 -1 -1\n"),
    ("127\r", "1 2 7 27 0 127 127 127 127 127 127\n"),
    ("-127\r", "-1 -2 -7 -27 0 -127 -127 -127 -127 -127 -127\n"),
    ("128\r", "2 3 8 28 1 128 128 128 128 128 128\n"),
    ("-128\r", "-2 -3 -8 -28 -1 -128 -128 -128 -128 -128 -128\n"),
    ("255\r", "0 0 5 55 1 126 0 255 255 255 255\n"),
    ("-255\r", "0 0 -5 -55 -1 -126 0 -255 -255 -255 -255\n"),
    ("256\r", "1 1 6 56 2 127 1 256 256 256 256\n"),
    ("-256\r", "-1 -1 -6 -56 -2 -127 -1 -256 -256 -256 -256\n"),
    ("32767\r", "1 2 7 67 1 1 127 128 63 767 31\n"),
    ("-32767\r", "-1 -2 -7 -67 -1 -1 -127 -128 -63 -767 -31\n"),
    ("-32768\r", "-2 -3 -8 -68 -2 -2 -128 -129 -64 -768 -32\n"),
    ("2\r", "2 2 2 2 2 2 2 2 2 2 2\n"),
    ("3\r", "0 3 3 3 3 3 3 3 3 3 3\n"),
    ("-3\r", "0 -3 -3 -3 -3 -3 -3 -3 -3 -3 -3\n"),
    ("9\r", "0 4 9 9 9 9 9 9 9 9 9\n"),
    ("10\r", "1 0 0 10 10 10 10 10 10 10 10\n"),
    ("-10\r", "-1 0 0 -10 -10 -10 -10 -10 -10 -10 -10\n"),
    ("99\r", "0 4 9 99 99 99 99 99 99 99 99\n"),
    ("100\r", "1 0 0 0 100 100 100 100 100 100 100\n"),
    ("511\r", "1 1 1 11 3 124 1 254 0 511 511\n"),
    ("512\r", "2 2 2 12 4 125 2 255 1 512 512\n"),
    ("1000\r", "1 0 0 0 111 97 235 229 489 0 1000\n"),
    ("-1000\r", "-1 0 0 0 -111 -97 -235 -229 -489 0 -1000\n"),
    ("1022\r", "2 2 2 22 6 119 2 251 0 22 1022\n"),
    ("1023\r", "0 3 3 23 7 120 3 252 1 23 0\n"),
    ("-1023\r", "0 -3 -3 -23 -7 -120 -3 -252 -1 -23 0\n"),
    ("24575\r", "2 0 5 75 64 65 95 160 47 575 23\n"),
    ("24576\r", "0 1 6 76 65 66 96 161 48 576 24\n"),
    ("25600\r", "1 0 0 0 73 58 100 157 50 600 25\n"),
    ("32735\r", "2 0 5 35 96 98 95 96 31 735 1022\n"),
    ("32736\r", "0 1 6 36 97 99 96 97 32 736 0\n"),
    ("-32736\r", "0 -1 -6 -36 -97 -99 -96 -97 -32 -736 0\n"),
];

// A number and its opposite, and the zones behind them.
const SENDING: &str = "10 INPUT A\n20 PRINT A;\"/\";-A,A,\"X\"\n30 END";

// Words at which one digit more, or another way to the digits, begins.
static NUMBERS: [Typed; 47] = [
    ("0\r", "0/0     0       X\n"),
    ("1\r", "1/-1    1       X\n"),
    ("9\r", "9/-9    9       X\n"),
    ("10\r", "10/-10  10      X\n"),
    ("11\r", "11/-11  11      X\n"),
    ("99\r", "99/-99  99      X\n"),
    ("100\r", "100/-100        100     X\n"),
    ("101\r", "101/-101        101     X\n"),
    ("109\r", "109/-109        109     X\n"),
    ("110\r", "110/-110        110     X\n"),
    ("127\r", "127/-127        127     X\n"),
    ("128\r", "128/-128        128     X\n"),
    ("199\r", "199/-199        199     X\n"),
    ("200\r", "200/-200        200     X\n"),
    ("255\r", "255/-255        255     X\n"),
    ("256\r", "256/-256        256     X\n"),
    ("300\r", "300/-300        300     X\n"),
    ("767\r", "767/-767        767     X\n"),
    ("768\r", "768/-768        768     X\n"),
    ("769\r", "769/-769        769     X\n"),
    ("800\r", "800/-800        800     X\n"),
    ("899\r", "899/-899        899     X\n"),
    ("900\r", "900/-900        900     X\n"),
    ("999\r", "999/-999        999     X\n"),
    ("1000\r", "1000/-1000      1000    X\n"),
    ("1001\r", "1001/-1001      1001    X\n"),
    ("1099\r", "1099/-1099      1099    X\n"),
    ("1100\r", "1100/-1100      1100    X\n"),
    ("9999\r", "9999/-9999      9999    X\n"),
    ("10000\r", "10000/-10000    10000   X\n"),
    ("10001\r", "10001/-10001    10001   X\n"),
    ("10099\r", "10099/-10099    10099   X\n"),
    ("10100\r", "10100/-10100    10100   X\n"),
    ("25599\r", "25599/-25599    25599   X\n"),
    ("25600\r", "25600/-25600    25600   X\n"),
    ("30000\r", "30000/-30000    30000   X\n"),
    ("32700\r", "32700/-32700    32700   X\n"),
    ("32767\r", "32767/-32767    32767   X\n"),
    ("-32768\r", "-32768/-32768   -32768  X\n"),
    ("-1\r", "-1/1    -1      X\n"),
    ("-99\r", "-99/99  -99     X\n"),
    ("-100\r", "-100/100        -100    X\n"),
    ("-767\r", "-767/767        -767    X\n"),
    ("-768\r", "-768/768        -768    X\n"),
    ("-999\r", "-999/999        -999    X\n"),
    ("-1000\r", "-1000/1000      -1000   X\n"),
    ("-10000\r", "-10000/10000    -10000  X\n"),
];

// Texts of no byte, of one and of more, and the zones behind them.
const TEXTS: &str =
    "10 PRINT \"\";\"A\";\"BC\";\"D\",\"E\",1;\"F\"\n20 PRINT \"*\";\n30 PRINT \"1234567\";\"8\",\"G\"\n\
    40 PRINT \" \",\"HIJ\";\"K\"\n50 PRINT \"Z\"\n60 END";

const SHOWN: &str = "ABCD    E       1F\n*12345678       G\n        HIJK\nZ\n";

// Lines to jump to: some have the same low byte, and some the same high byte.
const TARGETS: &str =
    "1 INPUT A\n2 GOTO A\n3 PRINT 3;\n4 END\n259 PRINT 5;\n260 END\n515 PRINT 7;\n516 END\n\
    32511 PRINT 8;\n32512 END\n32767 PRINT 9;\n";

// How many these are.
const COUNT: u16 = 11;

// How many lines the programs have: fewer than 64 are compared with.
const SIZES: [u16; 7] = [11, 12, 62, 63, 64, 65, 128];

static JUMPS: [Typed; 19] = [
    // the first line, which asks again, lines between, and the last line
    ("1\r3\r", "? \n3"),
    ("1\r1\r32511\r", "? \n? \n8"),
    ("3\r", "3"),
    ("4\r", ""),
    ("259\r", "5"),
    ("260\r", ""),
    ("515\r", "7"),
    ("32511\r", "8"),
    ("32767\r", "9\n!7 AT 32767\n"),
    // no line: nothing, next to a line, a line's low byte, a line's high byte, both bytes of two lines, negative
    ("0\r", "\n!1 AT 2\n"),
    ("5\r", "\n!1 AT 2\n"),
    ("258\r", "\n!1 AT 2\n"),
    ("771\r", "\n!1 AT 2\n"),
    ("512\r", "\n!1 AT 2\n"),
    ("255\r", "\n!1 AT 2\n"),
    ("32515\r", "\n!1 AT 2\n"),
    ("-1\r", "\n!1 AT 2\n"),
    ("-32765\r", "\n!1 AT 2\n"),
    ("-32768\r", "\n!1 AT 2\n"),
];

// A program of so many lines that goes to the number that is typed.
fn jumping(alloc: Global, lines: u16) -> Result<String, AllocError> {
    let mut source = String::from_str(alloc, TARGETS)?;
    for line in 1000..1000 + u32::from(lines.saturating_sub(COUNT)) {
        let text = format!(in alloc; "{line} GOTO 4\n")?;
        source.push_str(text.as_str())?;
    }
    Ok(source)
}

// Whether a program shows what it should after the question, beside both ROMs, if this is typed.
fn answers(alloc: Global, source: &str, typed: Typed) -> Result<bool, Fail> {
    let (keys, shown) = typed;
    let wanted = format!(in alloc; "? \n{shown}")?;
    let row = Row {
        source,
        keys: keys.as_bytes(),
        ..PLAIN
    };
    shows(alloc, &row, wanted.as_bytes())
}

// The first of these rows that a program shows otherwise.
fn first_wrong(alloc: Global, source: &str, rows: &[Typed]) -> Result<Option<&'static str>, Fail> {
    for row in rows {
        if !answers(alloc, source, *row)? {
            return Ok(Some(row.0));
        }
    }
    Ok(None)
}

fn try_rows<R: Abort + AllocGlobal>(rt: &R, source: &str, rows: &[Typed]) -> Result<(), Fail> {
    assert_eq!(rt; first_wrong(rt.alloc(), source, rows)?, None, "{source}");
    Ok(())
}

#[test]
fn quotients_at_edges(rt: HostRuntime) -> Result<(), Fail> {
    try_rows(&rt, DIVIDING, &DIVIDED)?;
    try_rows(&rt, OVER_BYTES, &QUOTIENTS)
}

#[test]
fn comparisons_at_edges(rt: HostRuntime) -> Result<(), Fail> {
    for source in [AGAINST_ONE, ONE_AGAINST] {
        try_rows(&rt, source, &SMALL)?;
    }
    for source in [AGAINST_BYTES, BYTES_AGAINST] {
        try_rows(&rt, source, &BYTES)?;
    }
    Ok(())
}

#[test]
fn draws_at_edges(rt: HostRuntime) -> Result<(), Fail> {
    try_rows(&rt, DRAWING, &BOUNDS)?;
    for &(seed, shown) in &STATES {
        let row = Row {
            source: FIRST_DRAWS,
            seed,
            ..PLAIN
        };
        assert!(rt; shows(rt.alloc(), &row, shown.as_bytes())?, "{seed}");
    }
    Ok(())
}

#[test]
fn digits_at_edges(rt: HostRuntime) -> Result<(), Fail> {
    try_rows(&rt, SPLITTING, &DIGITS)?;
    try_rows(&rt, SENDING, &NUMBERS)
}

#[test]
fn lowest_bits_at_edges(rt: HostRuntime) -> Result<(), Fail> {
    try_rows(&rt, MASKING, &LOWEST_BITS)
}

#[test]
fn multiples_at_edges(rt: HostRuntime) -> Result<(), Fail> {
    try_rows(&rt, REDUCING, &MULTIPLES)
}

#[test]
fn texts_of_one_byte(rt: HostRuntime) -> Result<(), Fail> {
    let row = Row {
        source: TEXTS,
        ..PLAIN
    };
    assert!(rt; shows(rt.alloc(), &row, SHOWN.as_bytes())?);
    Ok(())
}

#[test]
fn jumps_at_edges(rt: HostRuntime) -> Result<(), Fail> {
    for lines in SIZES {
        let source = jumping(rt.alloc(), lines)?;
        let wrong = first_wrong(rt.alloc(), source.as_str(), &JUMPS)?;
        assert_eq!(rt; wrong, None, "{lines} lines");
    }
    Ok(())
}

// Whether a program looks a number that is typed up in the table.
fn looks_up<'a>(alloc: Global, source: &'a str, keys: &'a [u8]) -> Result<bool, Fail> {
    let row = Row {
        source,
        keys,
        ..PLAIN
    };
    row_searches(alloc, &row)
}

#[test]
fn fewer_than_64_lines_are_compared(rt: HostRuntime) -> Result<(), Fail> {
    for lines in SIZES {
        let source = jumping(rt.alloc(), lines)?;
        for keys in [b"3\r".as_slice(), b"515\r", b"32767\r"] {
            let looks = looks_up(rt.alloc(), source.as_str(), keys)?;
            assert_eq!(rt; looks, lines >= 64, "{lines} lines");
        }
        let looks = looks_up(rt.alloc(), source.as_str(), b"5\r")?;
        assert!(rt; looks, "{lines} lines");
    }
    Ok(())
}
