10 REM Guess a number from 1 to 100, in colours.
15 REM TBC: --petscii
20 N=RND(100)+1
30 C=0
40 PRINT "{clr}{yel}{rvon} GUESS A NUMBER FROM 1 TO 100 {rvof}{lblu}"
50 INPUT G
60 C=C+1
70 IF G<N PRINT "{lred}[+]{lblu} HIGHER!"
80 IF G>N PRINT "{cyn}[-]{lblu} LOWER!"
90 IF G<>N GOTO 50
100 PRINT "{2 down}{lgrn}{rvon} RIGHT, IN ";C;" GUESSES {rvof}{lblu}"
110 END
