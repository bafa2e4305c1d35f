10 REM The times table up to 9 by 9, its squares in reverse.
15 REM TBC: --petscii
20 PRINT "{clr}{wht}";
30 LET R=1
40 LET C=1
50 IF R=C PRINT "{rvon}{yel}";
60 IF R*C<10 PRINT " ";
70 PRINT " ";R*C;
80 IF R=C PRINT "{rvof}{wht}";
90 LET C=C+1
100 IF C<10 GOTO 50
110 PRINT
120 LET R=R+1
130 IF R<10 GOTO 40
140 PRINT "{lblu}"
150 END
