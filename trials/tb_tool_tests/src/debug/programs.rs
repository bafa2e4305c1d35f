//! Programs that are debugged.

/// It counts down, and ends.
pub const LOOP: &[u8] = b"10 LET A=3\n20 PRINT A\n30 LET A=A-1\n40 IF A>0 GOTO 20\n50 END\n";

/// It draws a triangle.
pub const DRAWS: &[u8] =
    b"10 LET I=1\n20 LET J=0\n30 PRINT \"*\";\n40 LET J=J+1\n50 IF J<I GOTO 30\n60 PRINT\n\
70 LET I=I+1\n80 IF I<6 GOTO 20\n90 END\n";

/// It nests.
pub const NESTS: &[u8] =
    b"10 LET N=4\n20 GOSUB 100\n30 PRINT \"DONE \";S\n40 END\n100 IF N=0 RETURN\n110 LET S=S+N\n\
120 LET N=N-1\n130 GOSUB 100\n140 PRINT S\n150 RETURN\n";

/// It asks, and waits in the end.
pub const ASKS: &[u8] = b"10 PRINT \"A,B\"\n20 INPUT A,B\n30 LET C=A*B\n40 PRINT C\n50 GOTO 10\n";

/// It divides by zero.
pub const FAULTS: &[u8] = b"10 LET A=2\n20 PRINT 6/A\n30 LET A=A-1\n40 GOTO 20\n";

/// It runs past its last line, in a subroutine.
pub const RUNS_PAST: &[u8] = b"10 GOSUB 30\n20 END\n30 LET X=1\n40 GOSUB 50\n50 LET Y=2\n";

/// It runs forever, with dice.
pub const FOREVER: &[u8] = b"10 LET A=RND(6)\n20 LET B=B+1\n30 IF A>2 PRINT B\n40 GOTO 10\n";

/// What is typed to all of them.
pub const TYPED: &[u8] = b"3,4\r7\r-2,9,1\r12";
