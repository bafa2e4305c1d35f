# shellcheck shell=bash disable=SC2034,SC2154
# Warnings, refused sources, the limits of a program, and what a terminal is told beside.
# A part of tools/try/command_line.sh, which has the calls.

# Warnings come before anything else
row 0 'tbc: warning: line 20: no line 30' '' build warn.bas out.prg
row 0 'tbc: warning: line 20: no line 30' $'A\n\n!1 AT 20' run warn.bas
row 5 $'tbc: warning: line 20: no line 300\ntbc: warning: line 30: no line 400\ntbc: step limit' '' run both.bas --limit 300
row 6 $'tbc: warning: line 20: no line 30\ntbc: waits for a key' '\? ' run ask.bas

# Refused sources, by each command that takes one
{ printf '1 PRINT "A"\n' && seq -f '%g END' 2 1050; } >large.bas
printf '10 REM %0249d\n' 0 >long.bas
refused_sources() { # WORD..: the words of a command, SOURCE in place of the file
    row 1 'tbc: 1:256: line too long' '' "${@/SOURCE/long.bas}"
    row 1 'tbc: program too large (37889 bytes)' '' "${@/SOURCE/large.bas}"
    each 1 bad.bas "${@/SOURCE/bad.bas}" <<'END'
3:7: bad byte|10 END\n\n20 A=1\x7f
1:1: no line number|PRINT
2:2: bad line number|10 END\n 32768 END\n
1:1: bad line number|0 END
1:4: not compiled|10 RUN
2:7: syntax|10 END\r20 LET\r
1:10: number too large|10 PRINT 65536
empty program|
empty program|10 END\n10\n
line 20: expression too deep|10 END\n20 A=1+(1+(1+(1+(1+(1+(1+(1+(1+(1+(1+(1+(1+(1+(1+(1+1)))))))))))))))
END
}
refused_sources build SOURCE out.prg
refused_sources run SOURCE

# With --fit the memory is the limit, to the byte (a text of one byte alone would take less than its byte)
ends() { printf '1 PRINT "AB%s"\n' "$2" && seq -f '%g END' 2 "$1"; } # LINES TEXT
left_of() { # FILE: the bytes that its program leaves
    "$tbc" build --fit "$1" left.prg --map left.map && awk '$1 == "left" { print $3 }' left.map
}
lines=1050
while ends $lines '' >full.bas && left=$(left_of full.bas) && ((left > 200)); do lines=$((lines + left / 64 + 1)); done
taken=$((37888 - $(left_of large.bas)))
fill=$(printf "%${left}s" '' | tr ' ' X)
ends $lines "$fill" >full.bas
ends $lines "X$fill" >over.bas
full_cost=$((88 + 2 + left + 36 * lines))
row 0 '' '' build large.bas out.prg --fit
row 0 '' A run --fit large.bas
row 0 '' "AB$fill" run full.bas --fit
row 0 '' "AB$fill" play full.bas --fit
row 0 '' '*AB*' debug full.bas --fit
row 0 '' '' step full.bas --fit
row 0 '' '*END*' profile full.bas --fit
built "AB$fill" full.bas out.prg --fit
"$tbc" build large.bas left.prg --fit --map left.map
row 1 'tbc: program too large (37889 bytes)' '' build large.bas out.prg --map out.map --labels none.vs
same out.map left.map
row 0 '' '' build --fit large.bas out.prg --map out.map
same out.map left.map
row 3 'tbc: write fault' '' build large.bas out.prg --map folder
row 1 'tbc: program too large (37889 bytes)' '' build large.bas out.prg --map /dev/null
rows=$((rows + 1))
[ ! -e none.vs ] || { failed=$((failed + 1)) && echo "a program that is refused has labels"; }
for words in 'build over.bas out.prg' 'run over.bas' 'play over.bas' 'step over.bas' 'debug over.bas' 'profile over.bas'; do
    row 1 'tbc: program too large (37889 bytes)' '' $words --fit
    row 1 "tbc: program too large ($((full_cost + 1)) bytes)" '' $words
done
row 0 '' HELLO run hello.bas --fit
row 0 '' '' build hello.bas out.prg
cp out.prg built.prg
row 0 '' '' build hello.bas out.prg --fit
same built.prg out.prg

# At a terminal a second line says what helps, if it does
: >none.bas
by=(python3 "$root/tools/try/at_a_terminal.py" --)
for words in 'build large.bas out.prg' 'run large.bas' 'play large.bas' 'debug large.bas' 'profile large.bas'; do
    row 1 '' "tbc: program too large (37889 bytes)"$'\n'"tbc: note: its code takes $taken bytes: --fit compiles it" $words
done
row 1 '' "tbc: program too large ($((full_cost + 1)) bytes)" run over.bas
row 1 '' 'tbc: program too large (37889 bytes)' run over.bas --fit
row 1 '' 'tbc: empty program' run none.bas

# There an error names its file and its line, and says why
file bad.bas '10 REM count\n20 A=0\n10 FOR I=1 TO 10\n'
bad=$'tbc: 3:4: syntax\nbad.bas:3:4: error: syntax\n    3 | 10 FOR I=1 TO 10\n      |    ^\n'
bad+='bad.bas:3:4: note: Tiny BASIC has no FOR; count with LET, IF and GOTO'
for words in 'build bad.bas out.prg' 'run bad.bas' 'play bad.bas' 'debug bad.bas' 'profile bad.bas'; do
    row 1 '' "$bad" $words
done
file nested.bas '20 END\n10 A=1+(1+(1+(1+(1+(1+(1+(1+(1+(1+(1+(1+(1+(1+(1+(1+(1+B))))))))))))))))\n'
row 1 '' $'tbc: line 10: expression too deep\nnested.bas:2: error: expression too deep\n    2 | 10 A=1+*B))))))))))))))))' run nested.bas
for words in 'run routine.prg' 'play routine.prg' 'debug routine.prg' 'profile routine.prg'; do
    row 1 '' $'tbc: 1:1: bad byte\nroutine.prg:1:1: error: bad byte\n*\ntbc: note: routine.prg: a PRG file is run with --prg' $words
done
row 1 '' $'tbc: 1:1: bad byte\nroutine.prg:1:1: error: bad byte\n*      | ^' build routine.prg out.prg
mkfifo pipe.bas # what it gave is gone
cat bad.bas >pipe.bas &
row 1 '' 'tbc: 3:4: syntax' run pipe.bas
noted() { # STATUS TEXT NOTE WORD..
    row "$1" '' "tbc: $2"$'\n'"tbc: note: $3" "${@:4}"
}
file short.prg '\x01'
file past.prg '\xff\xff\x60\x60'
file closed.prg '\x00\xd0\x60'
file 'a#b.prg' '\x01\x08\x60'
head -c 1048577 /dev/zero >huge.bas
head -c 2097155 /dev/zero >long.keys
for word in run build play step debug profile check dis; do
    noted 3 'read fault' 'nowhere.bas: no such file' $word nowhere.bas
done
noted 3 'read fault' 'nowhere.bas: no such file' check hello.bas nowhere.bas
noted 3 'read fault' 'hello.bas/a.bas: no such file' run hello.bas/a.bas
noted 3 'read fault' 'folder: is a folder' run folder
noted 3 'read fault' 'huge.bas: longer than 1,048,576 bytes' run huge.bas
noted 3 'read fault' 'nowhere: no such file' asm nowhere out.prg --at C000
noted 3 'read fault' 'nowhere: no such file' run hello.bas --keys-file nowhere
noted 3 'read fault' 'nowhere.prg: no such file' disk games.d64 routine.prg nowhere.prg
noted 3 'write fault' 'nowhere/a.prg: no such folder' build hello.bas nowhere/a.prg
noted 3 'write fault' 'folder: is a folder' build hello.bas folder
noted 3 'write fault' '/dev/full: disk full' asm routine.s /dev/full --at C000
noted 1 'not a PRG: too short' 'short.prg: a PRG file has two bytes or more' run --prg short.prg
noted 1 'not a PRG: runs past the end' 'past.prg: its bytes end past 65,536' dis past.prg
noted 1 'not a PRG: not RAM' 'closed.prg: a byte of it would lie outside of RAM' play --prg closed.prg
noted 1 'bad name' 'games.img: the name of a disk image ends in .d64' disk games.img routine.prg
noted 1 'bad name' 'a#b.prg: a name on a disk is 1 to 16 of A to Z, 0 to 9, space, - and .' disk games.d64 routine.prg 'a#b.prg'
noted 1 'name twice' './routine.prg: an earlier file has this name on the disk' disk games.d64 routine.prg ./routine.prg
noted 1 'not a PRG: too short' 'short.prg: a PRG file has two bytes or more' disk games.d64 routine.prg short.prg
noted 1 'not a PRG: text' 'hello.bas: this is a text' disk games.d64 hello.bas
noted 2 'same file twice' './hello.bas: the same file as hello.bas' build hello.bas ./hello.bas
noted 2 'same file twice' 'out.prg: the same file as folder/../out.prg' build hello.bas out.prg --map folder/../out.prg
row 5 '' $'A\ntbc: step limit\ntbc: note: line 20 was begun last; --limit N allows more events' run forever.bas --limit 5000
row 5 '' $'tbc: step limit\ntbc: note: --limit N allows more events' run forever.bas --limit 1
row 5 '' $'A\ntbc: step limit\n*' run forever.bas --limit 100000000
by+=(sh -c 'exec "$@" >/dev/null' sh) # where output is not shown, how far a run is
row 5 '' $'*tbc: * of 1000 million events*\e[Ktbc: step limit\n*' run forever.bas --limit 1000000000
file loop.prg '\x00\xc0\x4c\x00\xc0'
row 5 '' $'*tbc: * of 1000 million events*\e[Ktbc: step limit*' run --prg loop.prg --limit 1000000000
by=("${by[@]:0:3}")
file some.labels 'al C:c000 .start\nal C:c005 .end\n'
file bad.labels 'al C:c000 .start\n\nRTS\n'
file brk.prg '\x00\xc0\xea\x00'
row 5 '' $'tbc: step limit\ntbc: note: --limit N allows more events\ntbc: note: at start' run --prg loop.prg --limit 9 --labels some.labels
row 7 '' $'tbc: wrong: brk at C001\ntbc: note: at start+1' run --prg brk.prg --labels some.labels
row 0 '' H run --prg routine.prg --labels some.labels
noted 1 'bad labels' 'bad.labels, line 3' run --prg routine.prg --labels bad.labels
noted 1 'bad labels' 'bad.labels, line 3' debug --prg routine.prg --labels bad.labels
noted 3 'read fault' 'nowhere.labels: no such file' run --prg routine.prg --labels nowhere.labels
noted 3 'read fault' 'huge.bas: longer than 1,048,576 bytes' debug --prg routine.prg --labels huge.bas
noted 3 'read fault' 'folder: is a folder' run hello.bas --keys-file folder
row 5 '' $'*tbc: * of 400 million events*\e[K line *tbc: step limit*' profile forever.bas --limit 400000000
row 5 '' $'*tbc: * of 400 million events*\e[K addr *tbc: step limit*' profile --prg loop.prg --limit 400000000
row 6 '' $'A\n\\? tbc: waits for a key\ntbc: note: line 20 waits; tbc play takes keys from the keyboard' run wait.bas
file wild.bas '110 A=1150\n120 GOTO A+1\n'
row 0 '' $'\n!1 AT 120\ntbc: note: fault 1 at line 120: no line 1151' run wild.bas
file part.bas '10 A=0\n20 PRINT 1/A\n'
row 0 '' $'\n!2 AT 20\ntbc: note: fault 2 at line 20: a divisor is 0' run part.bas
file alike.bas '10 PRINT "!2 AT 10"\n20 END\n'
row 0 '' '!2 AT 10' run alike.bas
row 0 '' '!2 AT 10' play alike.bas
row 0 '' $'\n!2 AT 20\ntbc: note: fault 2 at line 20: a divisor is 0' play part.bas
row 8 '' $'\n!2 AT 20\ntbc: note: fault 2 at line 20: a divisor is 0' play part.bas --strict
row 8 '' $'\n!2 AT 20\ntbc: note: fault 2 at line 20: a divisor is 0' run part.bas --strict
row 0 '' $'tbc: note: the seed is *; --seed * gives the same again\nHELLO' play hello.bas --seed time
row 0 '' H run --prg routine.prg --seed time
row 0 '' HELLO run hello.bas --seed 4711
# The seed that is told gives the same again
file drawn.bas '10 PRINT RND(32766)\n20 END\n'
row 0 '' $'tbc: note: the seed is *' run drawn.bas --seed time
seed=$(sed -n 's/.*the seed is \([0-9]*\);.*/\1/p' shown)
row 0 '' "$(tail -n 1 shown)" run drawn.bas --seed "$seed"
operands='operands are $05, $1234, NAME (with ,X or ,Y), #$05, #<NAME, #>NAME, ($05,X), ($05),Y and ($1234)'
asm_noted() { # ERROR PLACE TEXT LINE COLUMN CONTENTS: a text that is not assembled; COLUMN is empty where no place is shown
    local number=${2%%:*} block
    file noted.s "$6"
    printf -v block 'tbc: %s\nnoted.s:%s: error: %s\n%5d | %s' "$1" "$2" "$3" "$number" "$4"
    [ -z "$5" ] || printf -v block '%s\n      | %*s' "$block" "$5" ^
    row 1 '' "$block" asm noted.s out.prg --at C000
}
asm_noted 'text line 3' 3:5 'numbers are written $05 or $1234' 'LDA 5' 5 'RTS\n\nLDA 5\n'
asm_noted 'text line 1' 1:6 'numbers are written $05 or $1234' 'LDA #$5' 6 'LDA #$5\n'
asm_noted 'text line 1' 1:5 'nothing begins with this' 'JMP @L' 5 'JMP @L\n'
asm_noted 'text line 2' 2:1 'words are separated by spaces, not by tabs' '?RTS' 1 'NOP\r\n\tRTS\r\n'
asm_noted 'text line 1' 1:7 'texts are written as bytes: .byte $48,$49' '.byte "HI"' 7 '.byte "HI"'
asm_noted 'text line 1' 1:6 'there are no sums and no constants' 'HERE = $C000' 6 'HERE = $C000\n'
asm_noted 'text line 1' 1:5 'a label ends with a colon' 'LOOP NOP' 5 'LOOP NOP\n'
asm_noted 'text line 1' 1:2 'a label is a letter and then letters, digits or _, 31 at most, and not A' ' A: RTS ; A' 2 ' A: RTS ; A\n'
asm_noted 'text line 1' 1:4 'here stands a label, an instruction, .byte or .word' 'L: $05' 4 'L: $05\n'
asm_noted 'text line 1' 1:1 'there is .byte $05,$06 and .word $1234, or .word NAME' '.org $C000' 1 '.org $C000\n'
asm_noted 'text line 1' 1:4 'no such instruction' 'L: MOV $05' 4 'L: MOV $05\n'
asm_noted 'text line 1' 1:5 "$operands" 'LDA ($05),X' 5 'LDA ($05),X\n'
asm_noted 'item 1: unknown label' 2 'no label LOOP' 'START: JMP loop' '' '; no item\nSTART: JMP loop\n'
asm_noted 'item 2: label twice' 3 'an earlier line has the label L' 'L: NOP' '' 'L: RTS\n\nL: NOP\n'
asm_noted 'item 1: no such mode' 2 'this instruction has no such operand' 'STA #$05' '' 'RTS\nSTA #$05\n'
asm_noted 'item 0: branch out of range' 1 'a branch reaches from -128 to 127 bytes' 'BNE $1082' '' 'BNE $1082\n'
asm_noted 'item 0: indirect at page end' 1 'an indirect jump takes no pointer at the end of a page' 'JMP ($12FF)' '' 'JMP ($12FF)\n'
by=()
row 1 'tbc: item 0: indirect at page end' '' asm noted.s out.prg --at C000
row 5 'tbc: step limit' A run forever.bas --limit 600000000
row 1 'tbc: 3:4: syntax' '' run bad.bas
row 3 'tbc: read fault' '' run nowhere.bas
row 0 '' $'\n!2 AT 20' run part.bas
