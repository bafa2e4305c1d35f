# shellcheck shell=bash disable=SC2034,SC2154
# What a source asks for by its own words.
# A part of tools/try/command_line.sh, which has the calls.

file own.bas '5 REM TBC: --petscii --seed 7\n10 PRINT "{clr}";RND(999)\n20 END\n'
file unsaid.bas '5 REM\n10 PRINT "{clr}";RND(999)\n20 END\n'
# The state after 7 is 58988, and that after 8 is 18625.
sevenths='47'
eighths='643'

# Each command that takes a source
"$tbc" build unsaid.bas unsaid.prg --petscii --seed 7
row 0 '' '' build own.bas out.prg
same out.prg unsaid.prg
row 0 '' "{clr}$sevenths" run own.bas
row 0 '' "{clr}$sevenths" run own.bas --rude 7
row 0 '' "{93}$sevenths" play own.bas
from=own.bas
row 0 '' "{clr}$sevenths" run -
from=/dev/null
row 0 '' $' line *\n    5 *\n   10 *\n   20 *\n  sum *' profile own.bas
row 0 '' '' step own.bas
row 0 '' '*' debug own.bas
row 0 '' '' check own.bas hello.bas
row 0 '' "$(<own.bas)" format own.bas
row 0 '' $'100 REM TBC: --petscii --seed 7\n110 *\n120 END' renumber own.bas --from 100

# What the words say goes before
row 0 '' "{clr}$eighths" run own.bas --seed 8
row 0 '' "{93}$eighths" play own.bas --petscii --seed 8

# Its cost doesn't count if it says so
{
    printf '10 REM TBC: --fit\n'
    for ((line = 20; line <= 1720; line += 10)); do printf '%d PRINT "%0170d"\n' $line 0; done
    echo '1730 END'
} >large.bas
row 0 '' '' build large.bas out.prg
row 0 '' '' check large.bas
row 5 'tbc: step limit' '' run large.bas --limit 1

# A word that is no option
file odd.bas '10 REM TBC: --fast --petscii\n20 PRINT "{clr}"\n30 END\n'
row 0 '' '{clr}' run odd.bas
row 0 '' '' build odd.bas out.prg
row 1 '' $'odd.bas:1:13: error: not --fit, --petscii or --seed with a number\n    1 | 10 REM TBC: --fast --petscii\n      |             ^' \
    check odd.bas
by=(python3 "$root/tools/try/at_a_terminal.py" --)
row 0 '' $'tbc: note: odd.bas:1:13: no option of a source, and passed over\n{clr}' run odd.bas
by=()
rm own.bas unsaid.bas unsaid.prg large.bas odd.bas
