# shellcheck shell=bash disable=SC2034,SC2154
# Checks.
# A part of tools/try/command_line.sh, which has the calls.

# Checks. What is said of which source is tried in tb_golden
file slips.bas '10 FOR I=1 TO 10\n20 PRINT "\xe4"\n\n30 PRIMT I\n10 END\n'
file dice.bas '10 PRINT RND(6)+1\n20 GOTO 100\n10 PRINT RND(6)/5000+1\n'
cat >slips.said <<'END'
slips.bas:1:4: error: syntax
    1 | 10 FOR I=1 TO 10
      |    ^
slips.bas:1:4: note: Tiny BASIC has no FOR; count with LET, IF and GOTO
slips.bas:2:11: error: bad byte
    2 | 20 PRINT "?"
      |           ^
slips.bas:2:11: note: a text holds letters, digits, spaces and the signs from ! to @
slips.bas:4:7: error: syntax
    4 | 30 PRIMT I
      |       ^
slips.bas:4:7: note: did you mean PRINT
END
cat >dice.said <<'END'
dice.bas:1: warning: line 10 is replaced by line 3 of the file
    1 | 10 PRINT RND(6)+1
dice.bas:2: warning: no line 100
    2 | 20 GOTO 100
dice.bas:3: warning: RND(6) is odd and even in turns; RND(32766)/5461 is better
    3 | 10 PRINT RND(6)/5000+1
END
row 0 '' '' check hello.bas
row 0 '' "$(<dice.said)" check dice.bas hello.bas
row 1 '' "$(<slips.said)" check slips.bas
row 1 '' "$(cat dice.said slips.said dice.said)" check dice.bas hello.bas slips.bas dice.bas
row 1 '' $'large.bas: error: program too large (37889 bytes)\nlarge.bas: note: --fit compiles it' check large.bas
row 0 '' '' check --fit large.bas
row 0 '' '' check full.bas --fit
row 1 '' 'over.bas: error: program too large (37889 bytes)' check --fit over.bas hello.bas
row 1 '' "$(<slips.said)" check slips.bas --fit
row 3 'tbc: read fault' "$(cat slips.said dice.said)" check nowhere.bas slips.bas folder dice.bas
row 3 'tbc: read fault' '' check hello.bas nowhere.bas nowhere.bas
row 2 'error: *' '' check
row 2 'error: *' '' check hello.bas --seed 1
# What is said of a file is written before the next one is read: that one is a pipe to which nobody has written yet.
mkfifo later.bas
"$tbc" check slips.bas later.bas >shown &
for ((tries = 0; tries < 200; tries++)); do
    ! cmp -s shown slips.said || break
    sleep 0.05
done
same shown slips.said
timeout 10 bash -c "cat warn.bas >later.bas" || true
status=0
wait $! || status=$?
rows=$((rows + 1))
[ "$status" = 1 ] && [ "$(tail -n 2 shown)" = $'later.bas:2: warning: no line 30\n    2 | 20 GOTO 30' ] || failed=$((failed + 1))
rm later.bas
to=/dev/full
row 3 'tbc: write fault' '' check slips.bas
row 0 '' '' check hello.bas
to=shown
for source in "$root"/examples/*.bas; do
    cp "$source" example.bas
    "$tbc" check --fit example.bas >shown || { failed=$((failed + 1)); cat shown; }
    rows=$((rows + 1))
done
