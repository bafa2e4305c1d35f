# shellcheck shell=bash disable=SC2034,SC2154
# Transcripts: which pass, what is told of the others, and what is written.
# A part of tools/try/command_line.sh, which has the calls.

row 0 '' '*[1-9][0-9] passed, 0 failed' test "$root/examples"

# What passes: beside a source, by its own name, and of a folder in the order of the names
file wait.transcript '# fault 7 at 30\nA\n? \n> 21\n\n42\n\n!7 AT 30\n'
file wait.1.transcript '# waits\nA\n? \n\\\n'
both=$'ok wait.transcript\nok wait.1.transcript\n2 passed, 0 failed'
row 0 '' "$both" test wait.bas
row 0 '' $'ok wait.1.transcript\n1 passed, 0 failed' test wait.1.transcript
row 0 '' $'ok wait.1.transcript\nok wait.transcript\nok wait.1.transcript\n3 passed, 0 failed' test wait.1.transcript wait.bas
row 0 '' $'TAP version 13\nok 1 - wait.transcript\nok 2 - wait.1.transcript\n1..2' test wait.bas --format tap
mkdir -p games/deep empty
cp hello.bas games/deep/hello.bas
cp wait.bas games/b.bas
file games/deep/hello.transcript '# rude 7\nHELLO\n'
cp wait.transcript games/b.transcript
cp wait.1.transcript games/b.10.transcript
ln -s ../../games games/deep/again
file games/notes.txt 'B\n'
row 0 '' $'ok games/b.10.transcript\nok games/b.transcript\nok games/deep/hello.transcript\n3 passed, 0 failed' test games
row 0 '' $'ok games/b.transcript\n1 passed, 0 failed' test games/b.bas

# What a transcript asks for
file drawn.bas '10 PRINT RND(999)\n20 END\n'
file drawn.transcript '# seed 7\n# ends\n47\n'
file drawn.1.transcript '# seed 8\n643\n'
file drawn.2.transcript '# limit 3\n# runs\n'
row 0 '' '*3 passed, 0 failed' test drawn.bas
file signs.transcript '# petscii\n{clr}\\\nA\n'
file signs.bas '10 PRINT "{clr}";\n20 PRINT "A"\n30 END\n'
file signs.transcript '# petscii\n{clr}A\n'
row 0 '' '*1 passed, 0 failed' test signs.bas
file signs.transcript '{clr}A\n'
row 1 'tbc: signs.bas: *' $'not ok signs.transcript\n0 passed, 1 failed' test signs.bas

# What fails, where, and what the lines did
file drawn.2.transcript '# seed 7\n48\n'
row 1 '' $'ok drawn.transcript\nok drawn.1.transcript\nnot ok drawn.2.transcript\nline 10 was running\n@@ -3,1 +3,1 @@\n-48\n+47\n2 passed, 1 failed' test drawn.bas
row 1 '' $'TAP version 13\nok 1 - drawn.transcript\nok 2 - drawn.1.transcript\nnot ok 3 - drawn.2.transcript\n# line 10 was running\n# @@ -3,1 +3,1 @@\n# -48\n# +47\n1..3' test drawn.bas --format=tap
row 1 '' $'ok drawn.transcript\n*drawn.bas: 2 of 2 lines reached (100 %)*' test drawn.bas --lines
row 0 '' $'ok wait.1.transcript\n*wait.bas: 2 of 3 lines reached (66 %)*not reached: 30*1 passed, 0 failed' test --lines wait.1.transcript
row 0 '' $'*# wait.bas: 2 of 3 lines reached (66 %)*1..1' test --lines wait.1.transcript --format tap

# What is written anew is what differs
cp drawn.transcript kept.transcript
touch -d 2001-01-01 drawn.transcript
row 0 '' $'ok drawn.transcript\nok drawn.1.transcript\nupdated drawn.2.transcript\n3 passed, 0 failed' test --update drawn.bas
holds drawn.2.transcript '# seed 7\n# ends\n47\n'
holds <(date -r drawn.transcript +%Y) '2001\n'
row 0 '' $'ok drawn.transcript\nok drawn.1.transcript\nok drawn.2.transcript\n3 passed, 0 failed' test drawn.bas --update
file typed.bas '10 INPUT A\n20 PRINT "> ";A\n30 PRINT "# ";\n40 GOTO 10\n'
file typed.transcript '> 1\n> 2\n> x\n'
row 0 '' $'TAP version 13\nok 1 - typed.transcript # updated\n1..1' test --update typed.bas --format tap
holds typed.transcript '# fault 6 at 10\n? \n> 1\n\n\\> 1\n\\# ? \n> 2\n\n\\> 2\n\\# ? \n> x\n\n!6 AT 10\n'
row 0 '' $'ok typed.transcript\n1 passed, 0 failed' test typed.bas

# The page of the lines
row 0 '' '*1 passed, 0 failed' test typed.bas --lines --html page.html
row 0 '' '*1 passed, 0 failed' test typed.bas --lines --html page.html
holds <(head -c 15 page.html) '<!DOCTYPE html>'
row 2 'tbc: typed.transcript is not a page of tbc: --force replaces it' '' test typed.bas --lines --html typed.transcript
row 2 'tbc: hello.bas is a source' '' test typed.bas --lines --html hello.bas
row 2 'tbc: same file twice' '' test typed.bas --lines --html typed.bas
row 2 'tbc: same file twice' '' test typed.transcript --lines --html typed.transcript --force
row 2 'error: *' '' test typed.bas --html page.html
row 3 'tbc: write fault' '*' test typed.bas --lines --html nowhere/page.html

# What can't be run
unread() { # SAID TEXT: a row: a transcript that is none
    file bad.transcript "$2"
    row 1 "tbc: bad.transcript: $1" $'not ok bad.transcript\n0 passed, 1 failed' test bad.transcript
    row 1 "tbc: bad.transcript: $1" $'not ok bad.transcript\n0 passed, 1 failed' test --update bad.transcript
    holds bad.transcript "$2"
}
cp hello.bas bad.bas
unread 'line 1: unknown option' '# sede 7\n'
unread 'line 2: an option or an end is given twice' '# seed 7\n# seed 8\n'
unread 'line 2: an option or an end is given twice' '# ends\n# waits\n'
unread 'line 1: not a number from 0 to 65535' '# seed 65536\n'
unread 'line 1: not a number from 1 to 1000000000' '# limit 0\n'
unread 'line 1: not a number from 0 to 65535' '# rude x\n'
unread 'line 1: not a code from 0 to 255 at a line from 0 to 65535' '# fault 6\n'
unread 'line 2: an option below the output' 'HELLO\n# ends\n'
row 0 '' '*2 passed, 0 failed' test wait.bas
row 1 'tbc: bad.transcript: line 2*' $'ok wait.transcript\nok wait.1.transcript\nnot ok bad.transcript\nok drawn.transcript\n3 passed, 1 failed' \
    test wait.bas bad.transcript drawn.transcript
file refused.bas '10 PRIMT\n'
file refused.transcript ''
row 1 'tbc: refused.bas: 1:7: syntax' $'not ok refused.transcript\n0 passed, 1 failed' test refused.bas
file alone.transcript ''
row 3 'tbc: alone.bas: read fault' $'not ok alone.transcript\n0 passed, 1 failed' test alone.transcript
row 3 'tbc: nowhere.transcript: read fault' $'not ok nowhere.transcript\n0 passed, 1 failed' test nowhere.transcript
row 3 'tbc: nowhere.bas: no transcript' $'not ok nowhere.bas\n0 passed, 1 failed' test nowhere.bas
row 3 'tbc: hello.bas: no transcript' $'not ok hello.bas\n0 passed, 1 failed' test hello.bas --update
row 3 'tbc: empty: no transcript' $'TAP version 13\nnot ok 1 - empty\n1..1' test empty --format tap
row 3 $'tbc: nowhere: no transcript\ntbc: alone.bas: read fault' $'not ok nowhere\nok wait.1.transcript\nnot ok alone.transcript\n1 passed, 2 failed' \
    test nowhere wait.1.transcript alone.transcript
to=/dev/full
row 3 'tbc: write fault' '' test wait.bas
to=shown
row 2 'error: *' '' test
row 2 'error: *' '' test wait.bas --format xml
row 2 'error: *' '' test wait.bas --seed 7

# What is played is recorded, and passes
file typed '21\n'
from=typed
rm -f twice.transcript
cp wait.bas twice.bas
row 0 '' $'A\n? \n42\n\n!7 AT 30' play twice.bas --transcript twice.transcript
same twice.transcript wait.transcript
row 0 '' $'A\n? \n42\n\n!7 AT 30' play twice.bas --transcript twice.transcript --record out.keys
holds out.keys '32310d\n'
row 8 '' $'A\n? \n42\n\n!7 AT 30' play twice.bas --transcript twice.transcript --strict
from=/dev/null
row 0 '' $'ok twice.transcript\n1 passed, 0 failed' test twice.bas
row 6 'tbc: waits for a key' $'A\n\\? ' play twice.bas --transcript twice.1.transcript
same twice.1.transcript wait.1.transcript
row 0 '' 47 play drawn.bas --seed 7 --transcript drawn.3.transcript
holds drawn.3.transcript '# seed 7\n# ends\n47\n'
row 5 'tbc: step limit' A play forever.bas --limit 1000 --transcript forever.transcript
holds forever.transcript '# limit 1000\n# runs\nA\n'
row 0 '' '*1 passed, 0 failed' test forever.bas
rm signs.transcript
row 0 '' '{93}A' play signs.bas --petscii --transcript signs.transcript
holds signs.transcript '# petscii\n# ends\n{clr}A\n'
file notes.txt 'B\n'
row 2 'tbc: notes.txt is not a transcript: --force replaces it' '' play drawn.bas --transcript notes.txt
row 0 '' 61 play drawn.bas --transcript notes.txt --force
holds notes.txt '# ends\n61\n'
row 2 'tbc: drawn.bas is a source' '' play hello.bas --transcript drawn.bas
row 2 'tbc: same file twice' '' play drawn.bas --transcript drawn.bas
row 2 'tbc: same file twice' '' play drawn.bas --transcript out.keys --record out.keys
row 3 'tbc: write fault' HELLO play hello.bas --transcript nowhere/out.transcript
row 1 'tbc: 1:7: syntax' '' play refused.bas --transcript new.transcript
row 2 'error: *' '' play --prg once.prg --transcript new.transcript
[ ! -e new.transcript ] || failed=$((failed + 1))
