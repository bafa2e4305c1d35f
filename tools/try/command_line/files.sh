# shellcheck shell=bash disable=SC2034,SC2154
# What is written: beside a PRG file, under any spelling of a path, and to files that take no more.
# A part of tools/try/command_line.sh, which has the calls.

# What a build writes in addition to the PRG file
beside() { # NAME OPTION..: the listing of NAME.bas has its lines by name, and assembles to what follows the BASIC line
    row 0 '*' '' build $1.bas out.prg --labels out.vs --list out.s --map out.map "${@:2}"
    cp out.prg built.prg
    rows=$((rows + 1))
    grep -q '^line[0-9]*:$' out.s || { failed=$((failed + 1)) && echo "the listing of $1.bas has no names"; }
    row 0 '' '' asm out.s out.prg --at 080d
    tail -c +15 built.prg >wanted
    tail -c +3 out.prg >image
    same image wanted
}
beside hello
"$tbc" build hello.bas plain.prg
same built.prg plain.prg
holds out.map "$(cat <<'END'
part        addr   bytes    cost
block       080D    1011      64
line 10     0C00      50      65
line 20     0C32      47      36
line_table  0C61       8       0
sum         080D    1116     165
left        0C69   37783   37723
END
)\n"
for name in wait forever warn both ask far; do beside $name; done
for source in "$root"/examples/*.bas; do
    cp "$source" example.bas
    beside example --fit
done
awk 'BEGIN { for (n = 1; n <= 1050; n++) print n " REM \x01\xff\t" n }' >dense.bas
awk 'BEGIN { for (n = 1; n <= 127; n++) { printf "%d PRINT \"", n; for (k = 0; k < 236; k++) printf "%c", 97 + k % 26; print "\"" } }' >texts.bas
for name in dense texts; do
    beside $name
    rows=$((rows + 1))
    [ "$(wc -c <out.s)" -le 1048576 ] || failed=$((failed + 1))
done
generate() { # SEED: a source of lines that it determines
    awk -v seed="$1" 'function pick(n) { return int(rand() * n) }
        function name() { return substr("ABCDEFGHIJKLMNOPQRSTUVWXYZ", 1 + pick(26), 1) }
        function value(d) {
            if (d == 0 || pick(3) == 0) return pick(2) ? name() : pick(65536)
            return pick(5) ? "(" value(d - 1) substr("+-*/", 1 + pick(4), 1) value(d - 1) ")" : "RND(" value(d - 1) ")"
        }
        function statement(d, k) {
            k = pick(9)
            if (k == 0) return "LET " name() "=" value(3)
            if (k == 1) return "PRINT \"" substr("THE QUICK BROWN FOX! 0123456789", 1 + pick(16), 1 + pick(15)) "\";" value(2)
            if (k == 2) return "PRINT " value(2) "," name()
            if (k == 3) return "INPUT " name() "," name()
            if (k == 4 && d) return "IF " value(2) substr("=<>", 1 + pick(3), 1) value(2) " THEN " statement(d - 1)
            if (k == 5) return "GOTO " (pick(3) ? 10 * (1 + pick(30)) : value(1))
            if (k == 6) return "GOSUB " 10 * (1 + pick(30))
            return k == 7 ? "RETURN" : "REM " pick(1000)
        }
        BEGIN { srand(seed); for (n = 10; n <= 300; n += 10) print n, statement(2) }'
}
for ((seed = 1; seed <= 200; seed++)); do
    generate "$seed" >drawn.bas
    rows=$((rows + 1))
    "$tbc" build drawn.bas drawn.prg --list drawn.s 2>said && "$tbc" asm drawn.s again.prg --at 080d \
        && cmp -s <(tail -c +15 drawn.prg) <(tail -c +3 again.prg) || { failed=$((failed + 1)); echo "drawn by $seed: $(<said)"; }
done
for words in '--labels out.prg' '--list hello.bas' '--watch out.prg' '--map a --labels a' '--list a --map a' '--watch a --map a'; do
    row 2 'tbc: same file twice' '' build hello.bas out.prg $words
done
row 2 'tbc: same file twice' '' build out.prg out.prg --map a
row 2 'tbc: same file twice' '' build nowhere.bas nowhere.bas --map a
[ ! -e a ] || failed=$((failed + 1))

# No file is lost: none that is read is written, and none is written twice, however their paths are spelled
lost_files() {
    local path
    file a.bas '10 PRINT "A"\n20 END\n'
    file b.bas '10 PRINT "B"\n20 END\n'
    cp a.bas a.kept
    cp b.bas b.kept
    mkdir in
    ln -s .. in/up
    ln -s a.bas link.prg
    ln -s ../link.prg in/link.prg
    ln a.bas hard.prg
    for path in a.bas ./a.bas in/../a.bas in/up/a.bas in//.././a.bas "$PWD/a.bas" link.prg in/link.prg hard.prg; do
        row 2 'tbc: same file twice' '' build a.bas "$path"
        row 2 'tbc: same file twice' '' build "$path" -o a.bas
        row 2 'tbc: same file twice' '' build "$path" hard.prg
        for option in --labels --list --map --watch; do
            row 2 'tbc: same file twice' '' build a.bas out.prg $option "$path"
            row 2 'tbc: same file twice' '' build b.bas a.bas $option "$path"
        done
        row 2 'tbc: same file twice' '' build b.bas out.prg --map a.bas --list "$path"
        row 2 'tbc: same file twice' '' asm a.bas "$path" --at c000
        row 2 'tbc: same file twice' '' asm "$path" -o in/up/a.bas --at c000
        row 2 'tbc: same file twice' '' play a.bas --record "$path"
        row 2 'tbc: same file twice' '' profile a.bas --html "$path"
        row 2 'tbc: same file twice' '' page a.bas "$path"
        row 2 'tbc: same file twice' '' profile b.bas --keys-file a.bas --html "$path"
        from=a.bas
        row 2 'tbc: same file twice' '' build - "$path"
        row 2 'tbc: same file twice' '' asm - "$path" --at c000
        row 2 'tbc: same file twice' '' play b.bas --record "$path"
        from=/dev/null
        rows=$((rows + 1))
        cmp -s a.bas a.kept || { failed=$((failed + 1)) && echo "a.bas was written by its name $path" && cp a.kept a.bas; }
    done
    row 2 'tbc: same file twice' '' play b.bas --record shown
    row 2 'tbc: same file twice' '' profile b.bas --html ./shown
    row 2 'tbc: same file twice' '' build b.bas - --map shown
    row 2 'tbc: same file twice' '' build b.bas - --map -
    row 2 'tbc: same file twice' '' profile b.bas --html -
    row 2 'tbc: same file twice' '' play b.bas --record -
    cp routine.prg image.d64
    ln -s image.d64 disk.D64
    row 2 'tbc: same file twice' '' disk image.d64 image.d64
    row 2 'tbc: same file twice' '' disk disk.D64 routine.prg ./image.d64
    row 2 'tbc: same file twice' '' disk -o disk.D64 image.d64
    same image.d64 routine.prg

    # Nor files that are not there yet
    ln -s new.map soon.map
    ln -s ../soon.map in/soon.map
    for path in new.map ./new.map in/../new.map in/up/new.map "$PWD/new.map" soon.map in/soon.map; do
        row 2 'tbc: same file twice' '' build b.bas out.prg --list new.map --map "$path"
        row 2 'tbc: same file twice' '' build b.bas "$path" --map new.map
        [ ! -e new.map ] || { failed=$((failed + 1)) && echo "new.map was written" && rm new.map; }
    done
    row 0 '' '' build b.bas out.prg --list in/new.map --map soon.map
    grep -q '^part ' new.map || { failed=$((failed + 1)) && echo 'a link to no file was not followed'; }

    # A source that is there is never written
    cp b.bas B.BAS
    row 2 'tbc: b.bas is a source' '' build a.bas b.bas
    row 2 'tbc: ./b.bas is a source' '' build a.bas -o ./b.bas
    row 2 'tbc: B.BAS is a source' '' build a.bas out.prg --map B.BAS
    row 2 'tbc: b.bas is a source' '' asm routine.s b.bas --at c000
    row 2 'tbc: b.bas is a source' '' play a.bas --record b.bas
    row 2 'tbc: b.bas is a source' '' profile a.bas --html b.bas
    row 2 'tbc: b.bas is a source' '' page a.bas b.bas
    same b.bas b.kept
    same a.bas a.kept
    elsewhere=yes
    row 0 '' '' build a.bas new.bas
    [ -s new.bas ] || failed=$((failed + 1))

    # Where nothing is named: the source's name, with .prg. `-` is standard input or output
    cp a.bas in/some.name.bas
    "$tbc" build a.bas a.wanted
    for path in in/some.name.bas in/some.name; do
        cp a.bas in/some.name
        row 0 '' '' build $path
        same in/some.name.prg a.wanted
        rm in/some.name.prg
    done
    elsewhere=
    row 0 '' '' build a.bas -o out.prg
    same out.prg a.wanted
    row 0 '' '' asm routine.s -o out.prg --at c000
    same out.prg routine.prg
    from=a.bas
    row 0 '' '' build - out.prg
    same out.prg a.wanted
    row 0 '' A run -
    row 0 '' '*sum *' profile -
    row 0 '' '' check -
    from=slips.bas
    row 1 '' "$(sed 's/^slips.bas:/-:/' slips.said)" check -
    from=routine.s
    row 0 '' '' asm - out.prg --at c000
    same out.prg routine.prg
    from=routine.prg
    row 0 '' H run --prg -
    row 0 '' $'LDA #$48 ; C000\nJSR $FFD2 ; C002\nRTS ; C005' dis -
    out=out.d64
    row 0 '' '' disk out.d64 - maze_1.prg
    out=out.prg
    from=some.keys
    file some.keys 32310d
    row 0 '' $'A\n? \n42\n\n!7 AT 30' run wait.bas --keys-file -
    from=/dev/null
    row 1 'tbc: empty program' '' build -
    "$tbc" build - <a.bas >shown
    same shown a.wanted
    "$tbc" build a.bas - >shown
    same shown a.wanted
    "$tbc" build a.bas -o - | cat >shown
    same shown a.wanted
    "$tbc" asm - - --at c000 <routine.s >shown
    same shown routine.prg
    "$tbc" disk -o - routine.prg >shown
    "$tbc" disk out.d64 routine.prg
    rows=$((rows + 1))
    [ "$(stat -c %s shown)" = "$(stat -c %s out.d64)" ] || failed=$((failed + 1))
    "$tbc" build b.bas new.prg --map - >shown
    same shown new.map
    to=/dev/full
    row 3 'tbc: write fault' '' build a.bas -
    to=shown
}
lost_files
row 2 'error: *' '' build hello.bas out.prg --labels
row 1 'tbc: empty program' '' build most.bas out.prg --labels a --list b --map c
row 3 'tbc: read fault' '' build nowhere.bas out.prg --labels a --list b --map c
[ ! -e a ] && [ ! -e b ] && [ ! -e c ] || failed=$((failed + 1))
row 3 'tbc: write fault' '' build hello.bas folder --labels a
[ ! -e a ] || failed=$((failed + 1))
"$tbc" build hello.bas made.prg --labels made.vs --list made.s --map made.map --watch made.watch
for name in /dev/full nowhere/made folder; do
    # The files before the one that can't be written are there.
    for words in "--labels $name" "--labels a --list $name" "--labels a --list b --map $name"; do
        rows=$((rows + 1))
        status=0
        rm -f a b c
        "$tbc" build hello.bas out.prg $words 2>said || status=$?
        [ "$status" = 3 ] && [ "$(cat said)" = 'tbc: write fault' ] && cmp -s out.prg made.prg \
            && { [ ! -e a ] || cmp -s a made.vs; } && { [ ! -e b ] || cmp -s b made.s; } || failed=$((failed + 1))
    done
done
row 0 'tbc: warning: line 20: no line 30' '' build warn.bas out.prg --map out.map

# The watch file: its checkpoints are numbered in turn, and it knows where the program ends
watch_file() { # SOURCE CHECKPOINTS OPTION..
    local end
    row 0 '*' '' build "$1" out.prg --watch out.watch "${@:3}"
    rows=$((rows + 1))
    end=$((0x07ff + $(stat -c %s out.prg)))
    awk '$1 == "command" && $2 != ++number { bad = 1 } END { exit bad || number != '"$2"' }' out.watch \
        && grep -q "^trace exec \$080D \$$(printf %04X $((end - 1))) if " out.watch \
        && [ "$(grep -c "^watch exec \$$(printf %04X $end) \$9FFF if " out.watch)" = $((end < 0xa000)) ] && return
    failed=$((failed + 1))
    echo "the watch file of $1 is not as it should be"
}
watch_file hello.bas 249
watch_file large.bas 249 --fit
{ printf '1 PRINT "AAAAA"\n' && seq -f '%g GOSUB 32000' 10 10 5170 && printf '32000 RETURN\n'; } >whole.bas
watch_file whole.bas 248 --fit
row 3 'tbc: write fault' '' build hello.bas watched.prg --watch /dev/full
row 3 'tbc: write fault' '' build hello.bas watched.prg --watch folder

# A file that takes some bytes and no more: it is not there, or is what it was, and nothing is left beside it. The files
# before it are there, and none after it.
cut_short() { # STEP WHOLE WORD..: rows: `build` writes to the file `cut` what WHOLE holds, cut after 0, STEP, .. bytes
    local step=$1 whole=$2 bytes status text there=no left
    shift 2
    { cat "$whole" && echo old; } >was
    for ((bytes = 0; bytes < $(stat -c %s "$whole"); bytes += step)); do
        rows=$((rows + 1))
        status=0
        rm -f cut behind
        [ $there = no ] || cp was 'cut'
        text=$(trap '' XFSZ; exec prlimit --fsize="$bytes" "$tbc" build hello.bas "$@" 2>&1) || status=$?
        left=$(find . -maxdepth 1 -name '.tbc*' -o -maxdepth 1 -name 'cut*' | sort | tr '\n' ' ')
        if [ "$status" = 3 ] && [ "$text" = 'tbc: write fault' ] && [ ! -e behind ] \
            && if [ $there = no ]; then [ -z "$left" ]; else [ "$left" = './cut ' ] && cmp -s was 'cut'; fi; then
            :
        else
            failed=$((failed + 1))
            echo "build $*, cut behind $bytes bytes: status $status, $text, files $left"
        fi
        [ $there = no ] && there=yes || there=no
    done
}
cut_short 7 made.prg cut --labels behind
cut_short 7 made.vs /dev/null --labels cut --list behind
cut_short 499 made.s /dev/null --labels /dev/./null --list cut --map behind
cut_short 7 made.map /dev/null --labels /dev/./null --list /dev//null --map cut --watch behind
cut_short 4999 made.watch /dev/null --map /dev/./null --watch cut
for ((bytes = $(stat -c %s made.vs); bytes < $(stat -c %s made.s); bytes += 997)); do
    rows=$((rows + 1))
    rm -f cut before behind
    ! (trap '' XFSZ; exec prlimit --fsize="$bytes" "$tbc" build hello.bas /dev/null --labels before --list cut --map behind) 2>&- \
        && cmp -s before made.vs && [ ! -e behind ] || failed=$((failed + 1))
done
