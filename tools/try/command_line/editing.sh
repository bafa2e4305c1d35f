# shellcheck shell=bash disable=SC2034,SC2154
# Tidy sources, sources with other line numbers, and places as editors read them.
# A part of tools/try/command_line.sh, which has the calls.

# Tidy sources
file wild.bas '10print"Hi ";a\n  \n20if a<5goto10\r\n30 for\n'
file tidy.bas '10 PRINT "Hi ";A\n\n20 IF A<5 GOTO 10\r\n30 for\n'
cp wild.bas copy.bas
row 0 '' "$(<tidy.bas)" format wild.bas
row 1 '' wild.bas format wild.bas --check
same wild.bas copy.bas
row 0 '' '' format tidy.bas --check
row 0 '' '' format copy.bas --in-place
same copy.bas tidy.bas
touch -d 2001-01-01 tidy.bas
row 0 '' '' format --in-place tidy.bas
holds <(date -r tidy.bas +%Y) '2001\n'
for option in '' --check --in-place; do
    # shellcheck disable=SC2086 # none or one word
    row 3 'tbc: read fault' '' format nowhere.bas $option
done
row 3 'tbc: read fault' '' format folder
row 2 'error: *' '' format
row 2 'error: *' '' format wild.bas --in-place --check
to=/dev/full
row 3 'tbc: write fault' '' format wild.bas
row 3 'tbc: write fault' '' format wild.bas --check
row 0 '' '' format tidy.bas --check
to=shown
from=wild.bas
row 0 '' "$(<tidy.bas)" format -
row 0 '' "$(<tidy.bas)" format - --in-place
row 1 '' - format - --check
from=/dev/null
# A tidy example is the same program, and it is the tidy form of the example with its spaces and letters changed
respelled() { # SOURCE SEED
    python3 - "$1" "$2" <<'END'
import random, sys
random.seed(int(sys.argv[2]))
for line in open(sys.argv[1]).read().split("\n")[:-1]:
    parts = line.split('"')
    if "REM" in "".join(parts[::2]).replace(" ", ""):
        print(line)
        continue
    for at in range(0, len(parts), 2):
        letters = [random.choice([it, it.lower()]) for it in parts[at].replace(" ", "")]
        parts[at] = "".join(it + " " * (random.random() < 0.3) for it in letters)
    changed = '"'.join(parts)
    print(changed if len(changed) <= 255 else line)
END
}
for source in "$root"/examples/*.bas; do
    "$tbc" format "$source" >tidy.bas
    for seed in 1 2 3; do
        respelled "$source" $seed >wild.bas
        "$tbc" format wild.bas >shown
        same shown tidy.bas
    done
    row 0 '' '' format tidy.bas --check
    "$tbc" build "$source" --fit -o one.prg 2>/dev/null || true
    "$tbc" build tidy.bas --fit -o two.prg 2>/dev/null || true
    same two.prg one.prg
done

# Renumbered sources
file crowded.bas '3 END\n1 go sub 0+3  \n  \n2 A=1\n2 IF A=1 THEN GOTO 1\r\n4\n'
file apart.bas '30 END\n10 go sub 30  \n  \n20 IF A=1 THEN GOTO 10\r\n'
file high.bas '32767 END\n32765 go sub 32767  \n  \n32766 IF A=1 THEN GOTO 32765\r\n'
cp crowded.bas copy.bas
cp crowded.bas kept.bas
row 0 '' "$(<apart.bas)" renumber crowded.bas
row 0 '' "$(<high.bas)" renumber crowded.bas --from 32765 --step 1
same crowded.bas copy.bas
row 0 '' '' renumber copy.bas --in-place
same copy.bas apart.bas
row 0 '' '' renumber --in-place copy.bas
same copy.bas apart.bas
for words in '--from 32766 --step 1' '--from 1 --step 16384' '--from 32767 --step 32767'; do
    # shellcheck disable=SC2086 # two options
    row 1 'tbc: line number above 32767' '' renumber crowded.bas --in-place $words
done
for words in '--from 0' '--from 32768' '--step 0' '--step 32768' '--step -1' '--from x' '--check'; do
    # shellcheck disable=SC2086 # an option
    row 2 'error: *' '' renumber crowded.bas --in-place $words
done
same crowded.bas kept.bas
row 2 'error: *' '' renumber
each 1 refused.bas renumber --in-place refused.bas <<'END'
line 2: computed jump|2 GOTO A\n3 GOTO 9\n
line 2: computed jump|3 GOTO 9\n2 IF A=1 IF B=1 GOSUB RND(2)\n
line 2: no line 9|3 GOTO A\n2 GOSUB 9\n
line 2: no line -1|2 GOTO -1\n
1:3: syntax|1 FOR\n2 GOTO A\n
empty program|\n
END
{ printf '1REM' && printf 'x%.0s' {1..251} && printf '\n'; } >widest.bas
row 1 'tbc: line 1: line too long' '' renumber widest.bas
row 0 '' '*' renumber widest.bas --from 2
for option in '' --in-place; do
    # shellcheck disable=SC2086 # none or one word
    row 3 'tbc: read fault' '' renumber nowhere.bas $option
done
row 3 'tbc: read fault' '' renumber folder
to=/dev/full
row 3 'tbc: write fault' '' renumber crowded.bas
to=shown
from=crowded.bas
row 0 '' "$(<apart.bas)" renumber -
row 0 '' "$(<apart.bas)" renumber - --in-place
from=/dev/null
# An example with other numbers sends the same, and has its own numbers again
for source in "$root"/examples/*.bas; do
    "$tbc" renumber "$source" --from 7 --step 3 >apart.bas 2>/dev/null || continue
    "$tbc" renumber "$source" >one.bas
    "$tbc" renumber apart.bas >two.bas
    same two.bas one.bas
    "$tbc" run "$source" --seed 5 --type '3\n4\n5\n' --limit 200000 >one 2>/dev/null || true
    "$tbc" run apart.bas --seed 5 --type '3\n4\n5\n' --limit 200000 >two 2>/dev/null || true
    same <(sed 's/^!\([0-9]\) AT .*/!\1/' two) <(sed 's/^!\([0-9]\) AT .*/!\1/' one)
done

# vim's default errorformat reads each line that names a place, in what is written here and in all rows, and no others
if vim --version 2>/dev/null | grep -q -e +quickfix; then
    "$tbc" check slips.bas dice.bas nowhere.bas hello.bas >places 2>/dev/null || true
    sed -n '/^check /,/^=> /{/^check /d;/^=> /d;p;}' "$root"/trials/*/stdout >>places
    printf '%s\n' 'cgetfile places' \
        "call writefile(map(filter(getqflist(), 'v:val.valid'), {_, e -> bufname(e.bufnr) . ':' . e.lnum . ':' . (e.col ? e.col . ':' : '') . e.text}), 'entries')" \
        'qa!' >read.vim
    vim -e -s -u NONE -i NONE -S read.vim </dev/null || true
    grep -E '^[a-z]+\.bas:[0-9]+:' places >wanted
    same entries wanted
else
    echo 'vim is not installed: what it reads of a check was not tried'
fi
