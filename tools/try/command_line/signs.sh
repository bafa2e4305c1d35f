# shellcheck shell=bash disable=SC2034,SC2154
# Signs in the texts of sources, by --petscii.
# A part of tools/try/command_line.sh, which has the calls.

file signs.bas '10 PRINT "{clr}{3 Down}[A]{c1}b"\n20 PRINT "{rvon}",7;\n30 END\n'
signs_sent=$'{93}{11}{11}{11}{5B}A{5D}{C1}B\n{12}       7'
signs_shown=$'{clr}{down}{down}{down}\\[A\\]{C1}B\n{rvon}       7' # as `run` shows it

# Each command that takes a source
built "$signs_sent" --petscii signs.bas out.prg
row 0 '' "$signs_shown" run signs.bas --petscii
row 0 '' "$signs_shown" run --petscii --fit --rude 7 signs.bas
row 0 '' "$signs_sent" play signs.bas --petscii
file commands 'c\nq\n'
from=commands
row 0 '' $'10 *\n| {12}       7\nreturned' debug signs.bas --petscii
from=/dev/null
row 0 '' $' line *\n   10 *\n   20 *\n   30 *\n  sum *' profile --petscii signs.bas
row 0 '' '' step signs.bas --petscii
row 0 '' '' check --petscii signs.bas hello.bas
from=signs.bas
row 0 '' "$signs_shown" run --petscii -
from=/dev/null
row 0 '' HELLO run hello.bas --petscii
row 0 '' H run --prg routine.prg --petscii
beside_signs() { # rows: the files that tell of a program with signs
    row 0 '' '' build --petscii signs.bas out.prg --labels out.labels --list out.list --map out.map --watch out.watch
    cp out.prg first.prg
    "$tbc" asm out.list again.bin --at 080D
    tail -c +15 first.prg >wanted
    tail -c +3 again.bin >again
    same again wanted
}
beside_signs

# The map of a source that costs too much is read with its signs
{
    printf '10 PRINT "{clr}"\n'
    for ((line = 20; line <= 1720; line += 10)); do printf '%d PRINT "%0170d"\n' $line 0; done
} >dear.bas
row 1 'tbc: program too large *' '' build --petscii dear.bas out.prg --map dear.map
row 0 '' '' build --petscii --fit dear.bas out.prg --map fit.map
same dear.map fit.map

# Tidy lines and other numbers: texts are as they were written
file untidy.bas '5 let  a = 1\n10 print"{clr}a [{3 DOWN}]" ; a\n20 goto 10\n'
row 0 '' $'5 LET A=1\n10 PRINT "{clr}a \\[{3 DOWN}\\]";A\n20 GOTO 10' format --petscii untidy.bas
row 0 '' $'5 LET A=1\n10 print"{clr}a \\[{3 DOWN}\\]" ; a\n20 GOTO 10' format untidy.bas
row 1 '' untidy.bas format --check --petscii untidy.bas
row 0 '' $'100 let  a = 1\n200 print"{clr}a \\[{3 DOWN}\\]" ; a\n300 goto 200' renumber --petscii untidy.bas --from 100 --step 100
row 1 'tbc: 2:10: bad byte' '' renumber untidy.bas
cp untidy.bas tidied.bas
row 0 '' '' format --petscii --in-place tidied.bas
row 0 '' '' renumber --petscii --in-place tidied.bas
holds tidied.bas '10 LET A=1\n20 PRINT "{clr}a [{3 DOWN}]";A\n30 GOTO 20\n'

# Without it nothing changes
cat >signs.said <<'END'
signs.bas:1:11: error: bad byte
    1 | 10 PRINT "{clr}{3 Down}\[A\]{c1}b"
      |           ^
signs.bas:1:11: note: with --petscii a name in braces is a sign, as {clr}; without it no text has a brace
signs.bas:2:11: error: bad byte
    2 | 20 PRINT "{rvon}",7;
      |           ^
signs.bas:2:11: note: with --petscii a name in braces is a sign, as {clr}; without it no text has a brace
END
row 1 '' "$(<signs.said)" check signs.bas
for words in 'build signs.bas out.prg' 'run signs.bas' 'play signs.bas' 'debug signs.bas' 'profile signs.bas' 'step signs.bas'; do
    # shellcheck disable=SC2086
    row 1 'tbc: 1:11: bad byte' '' $words
done

# A name that is none is told at its brace, with the nearest one
file near.bas '10 PRINT "{cls}"\n20 PRINT "A{3 dwon}"\n30 PRINT "{22}"\n40 PRINT "{clr"\n50 PRINT "{256 up}"\n60 PRINT {clr}\n70 PRINT "}"\n80 PRINT "A{3down}"\n90 PRINT "{0 Down}"\n100 PRINT "{3dwn}"\n110 PRINT "{0 up"\n'
cat >near.said <<'END'
near.bas:1:11: error: bad byte
    1 | 10 PRINT "{cls}"
      |           ^
near.bas:1:11: note: did you mean {clr}
near.bas:2:12: error: bad byte
    2 | 20 PRINT "A{3 dwon}"
      |            ^
near.bas:2:12: note: did you mean {down}
near.bas:3:11: error: bad byte
    3 | 30 PRINT "{22}"
      |           ^
near.bas:3:11: note: a sign in a text is a name, as {clr} and {3 down}, or two hexadecimal digits, as {C1}
near.bas:4:11: error: bad byte
    4 | 40 PRINT "{clr"
      |           ^
near.bas:4:11: note: did you mean {clr}
near.bas:5:11: error: bad byte
    5 | 50 PRINT "{256 up}"
      |           ^
near.bas:5:11: note: a count is 1 to 255, as in {3 down}
near.bas:6:10: error: bad byte
    6 | 60 PRINT {clr}
      |          ^
near.bas:7:11: error: bad byte
    7 | 70 PRINT "}"
      |           ^
near.bas:7:11: note: a text holds letters, digits, spaces and the signs from ! to @
near.bas:8:12: error: bad byte
    8 | 80 PRINT "A{3down}"
      |            ^
near.bas:8:12: note: a space stands behind a count, as in {3 down}
near.bas:9:11: error: bad byte
    9 | 90 PRINT "{0 Down}"
      |           ^
near.bas:9:11: note: a count is 1 to 255, as in {3 down}
near.bas:10:12: error: bad byte
   10 | 100 PRINT "{3dwn}"
      |            ^
near.bas:10:12: note: did you mean {down}
near.bas:11:12: error: bad byte
   11 | 110 PRINT "{0 up"
      |            ^
near.bas:11:12: note: did you mean {up}
END
row 1 '' "$(<near.said)" check --petscii near.bas
row 1 'tbc: 1:11: bad byte' '' build near.bas out.prg --petscii

# What a line stands for is at most 255 bytes
file most.bas '10 PRINT "{246 wht}"\n20 END\n'
row 0 '' '' build most.bas out.prg --petscii
file most.bas '10 PRINT "{240 wht}{8 up}"\n20 END\n'
row 1 'tbc: 1:20: line too long' '' build most.bas out.prg --petscii

# Where no text has a brace or a bracket, it is the same file
for source in "$root"/examples/*.bas; do
    "$tbc" build --fit "$source" plain.prg 2>/dev/null
    "$tbc" build --fit --petscii "$source" signs.prg 2>/dev/null
    same signs.prg plain.prg
done

# The coloured examples, by an interpreter that was written from docs/LANGUAGE.md alone; what is shown of a text is read as
# the same text again
alone() { sed 's/[][*?\\]/\\&/g'; } # prints a pattern of standard input alone
coloured() { # NAME KEYS: rows: a run, and a source that prints what each line of its output shows
    row 0 '' "$("$root/tools/interpreter.py" --petscii "$root/examples/colour/$1.bas" --keys "$2" | alone)" \
        run --petscii "$root/examples/colour/$1.bas" --keys "$2"
    awk '{ printf "%d PRINT \"%s\"\n", NR, $0 } END { print NR + 1 " END" }' shown >shown.bas
    cp shown wanted
    row 0 '' "$(alone <wanted)" run --petscii shown.bas
}
coloured times ''
coloured guess 35300d31300d32330d

# The words
row 2 'error: *' '' run signs.bas --petscii=yes
row 2 'error: *' '' dis routine.prg --petscii

# Editors
signs_served() {
    local at='"textDocument":{"uri":"file:///a.bas","languageId":"tinybasic"' end='{"jsonrpc":"2.0","method":"exit"}'
    from=messages
    frames '{"jsonrpc":"2.0","id":1,"method":"initialize","params":{}}' \
        '{"jsonrpc":"2.0","method":"textDocument/didOpen","params":{'"$at"',"version":3,"text":"10 PRINT \"{clr}\"\n20 GOTO 10\n"}}}' \
        '{"jsonrpc":"2.0","id":2,"method":"textDocument/definition","params":{"textDocument":{"uri":"file:///a.bas"},"position":{"line":1,"character":9}}}' \
        '{"jsonrpc":"2.0","id":3,"method":"shutdown"}' "$end"
    row 0 '' '*"diagnostics":\[\]*"id":2,"jsonrpc":"2.0","result":{"range":{"end":{"character":2,"line":0}*' lsp --petscii
    row 0 '' '*"code":"bad-byte"*"id":2,"jsonrpc":"2.0","result":null*' lsp
    local begin='{"seq":1,"type":"request","command":"initialize"}' go='{"seq":3,"type":"request","command":"configurationDone"}'
    local launch='{"seq":2,"type":"request","command":"launch","arguments":{"program":"signs.bas"' last='{"seq":9,"type":"request","command":"disconnect"}'
    frames "$begin" "$launch}}" "$go" "$last"
    row 0 '' '*"output":"{93}{11}{11}{11}*' dap --petscii
    row 0 '' '*"message":"1:11: bad byte","request_seq":2,*' dap
    frames "$begin" "$launch,\"petscii\":true}}" "$go" "$last"
    row 0 '' '*"output":"{93}{11}{11}{11}*' dap
    frames "$begin" "$launch,\"petscii\":false}}" "$go" "$last"
    row 0 '' '*"message":"1:11: bad byte","request_seq":2,*' dap --petscii
    from=/dev/null
}
signs_served

# Generated sources with signs
rows=$((rows + 1))
"$root/tools/try/signed_sources.py" "$tbc" || failed=$((failed + 1))
