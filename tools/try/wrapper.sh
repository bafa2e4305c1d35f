#!/usr/bin/env bash
# Tries ./tbc in copies of this repository: one that is built, one that isn't. Another rt and another build.py, which only
# write what the toolchain would, take their place, except in one trial run. Prints what differs, and then ends with
# status 1.
#
#   tools/try/wrapper.sh            what it answers, and how many lines a trial run compiles
#   tools/try/wrapper.sh --times    beside that how long it takes to start, and to its first answer with nothing built
. "$(dirname "${BASH_SOURCE[0]}")/../setup.sh"
needs_program
needs rt python3
clocked=${1-}
largest=29000 # lines of Rust that the trial run of a command may compile

rows=0
failed=0
real_path=$PATH
row() { # STATUS SAID SHOWN WORD..: SAID and SHOWN are patterns of standard error and output, without the last line end
    local status=0 wanted=$1 said=$2 shown=$3
    shift 3
    rows=$((rows + 1))
    "$@" >shown 2>said </dev/null || status=$?
    [[ $status == "$wanted" && $(<said) == $said && $(<shown) == $shown ]] && return
    failed=$((failed + 1))
    printf '%s\n  status %s, wanted %s\n  said %q, wanted %q\n  shown %q, wanted %q\n' \
        "$*" "$status" "$wanted" "$(<said)" "$said" "$(<shown)" "$shown"
}
plain() { sed 's/[][*?\\]/\\&/g' <<<"$1"; } # TEXT: a pattern of this text alone
is_so() { # OTHERWISE WORD..: says OTHERWISE if WORD.. fails
    local otherwise=$1
    shift
    rows=$((rows + 1))
    "$@" >/dev/null 2>&1 && return
    failed=$((failed + 1))
    echo "$otherwise"
}
# Runs a command as a terminal does, in a group of its own that an interrupt can end.
interruptible() {
    local start='import os, signal, sys; os.setsid(); [signal.signal(it, signal.SIG_DFL) for it in (signal.SIGHUP, signal.SIGINT, signal.SIGPIPE, signal.SIGTERM)]; os.execv(sys.argv[1], sys.argv[1:])'
    exec python3 -c "$start" "$@"
}
at_terminal() { python3 -c 'import pty, sys; sys.exit(pty.spawn(sys.argv[1:]) >> 8)' "$@"; }

# Copies of what a clone has, with the proved program in one of them.
copy() { # NAME
    mkdir -p "$1/tools"
    cp "$root/tbc" "$root/crates.txt" "$root/HANDLES" "$1"
    cp "$root/tools/help.txt" "$root/tools/trial_copy.py" "$1/tools"
    (cd "$root" && find crates -name out -prune -o -type f \( -path '*/src/*' -o -path '*/specs/*' \) -print) >files
    tar -C "$root" -cf - -T files | tar -C "$1" -xf -
}
copy unbuilt
copy built

# The other rt: it writes down its words and its input, and then does what $AS says.
mkdir stub
cat >stub/rt <<'END'
#!/usr/bin/env bash
printf '%s\n' "$PWD" "$@" >"$STUB/words"
case $1:${AS-} in
    try:answer | try:whole)
        [[ $AS != whole || $PWD != */command/* ]] || { echo 'error[some]: no such thing' >&2; exit 1; }
        cat >"$STUB/input"
        find .. -name '*.rt' -exec cat {} + | wc -l >"$STUB/lines"
        echo SHOWN
        printf 'tbc: step limit\nchecked: ended status=5\nraces: not looked for\nrun=ended status=5 runners=1 proved=no\n' >&2
        exit 5
        ;;
    try:silent)
        printf 'interpreter: no-answer: a call\nchecked: no-answer: the program did not end within the time limit\n' >&2
        printf 'run=no-answer proved=no\n' >&2
        exit 6
        ;;
    try:long) echo $$ >"$STUB/pid"; exec sleep 1000 ;;
    try:*) echo 'error[some]: no such thing' >&2; exit 1 ;;
esac
END
# The other python3, which stands in for tools/build.py and nothing else.
cat >stub/python3 <<'END'
#!/usr/bin/env bash
case $1:${AS-} in
    */tools/build.py:good)
        printf '== tb_words\nfn f: proved\nrt: tb_words proved\nrt: tb_opcodes is kept: an earlier build proved the same\n'
        cp "$TBC" "${1%/tools/*}/crates/tbc/out/tbc"
        ;;
    */tools/build.py:bad) printf '== tb_words\nfn f: not proved\nrt: tb_words NOT PROVED\n'; exec sleep 1000 ;;
    */tools/build.py:killed) printf '== tb_words\nrt: the check was killed, most likely for memory: once more\nrt: tb_words NOT PROVED\n'; exit 1 ;;
    */tools/build.py:long) echo $$ >"$STUB/pid"; exec sleep 1000 ;;
    */tools/build.py:slow) echo $$ >"$STUB/pid"; sleep 2; printf 'rt: tb_words proved\nrt: tb_opcodes proved\n'; exec sleep 1000 ;;
    *) exec "$PYTHON" "$@" ;;
esac
END
chmod +x stub/rt stub/python3
PYTHON=$(python3 -c 'import sys; print(sys.executable)') # itself: what starts it may change PATH
export STUB=$work/stub TBC=$tbc PYTHON
printf '10 PRINT "HELLO"\n20 END\n' >hello.bas
printf '10 INPUT A\n' >wait.bas
PATH=$work/stub:$real_path AS=good built/tbc --build >/dev/null 2>&1

# A copy that is built: the program's own answers, whatever folder it is called from, and no slower than it may be.
PATH=/usr/bin:/bin
row 0 '' HELLO built/tbc run hello.bas
row 6 'tbc: waits for a key' '\? ' built/tbc run wait.bas
row 6 '' '\? tbc: waits for a key' "$root/tools/try/at_a_terminal.py" '? ' '' -- built/tbc play wait.bas
row 2 'error: *' '' built/tbc jump
row 3 'tbc: read fault' '' built/tbc run --prg=nowhere.prg
ln -s built/tbc link
row 0 '' HELLO ./link run hello.bas
row 0 '' HELLO bash built/tbc run hello.bas
row 0 '' HELLO env -C built/crates ../tbc run "$work/hello.bas"
row 0 '' HELLO env PATH="$work/built:$PATH" tbc run hello.bas
row 0 '' "$(plain "$("$tbc" --version)")" built/tbc --version
row 0 '' "$(plain "$("$tbc" run --help)")" built/tbc run --help
row 0 '' "$(plain "$("$tbc" --help)")*--test *--build *--install DIR *vice FILE.prg *" built/tbc --help
row 2 "$(plain "$("$tbc" 2>&1 || true)")" '' built/tbc
row 0 '' "$(plain "$("$tbc" version)")" built/tbc version
row 0 '' "$(plain "$("$tbc" help run)")" built/tbc help run
row 0 '' "$(plain "$("$tbc" help)")*--build *" built/tbc help
for word in --build --install vice; do
    row 0 '' "$(plain "$("$tbc" --help)")*--build *" built/tbc $word --help
    row 0 '' "$(plain "$("$tbc" --help)")*--build *" unbuilt/tbc $word -h
done
if [ "$clocked" = --times ]; then
    for ((i = 0; i < 21; i++)); do
        timed program "$tbc" --version
        timed wrapper built/tbc --version
    done
    echo "the program starts in $(fastest program) us, ./tbc in $(fastest wrapper) us"
fi

# Tests, which tools/quick_tests.py does
row 2 'tbc: --test takes no words' '' unbuilt/tbc --test now
command -v rt >/dev/null || row 3 'tbc: the command rt *' '' unbuilt/tbc --test

# Installing
row 0 "tbc: installed as $work/bin/tbc" '' built/tbc --install "$work/bin"
row 0 '' HELLO bin/tbc run hello.bas
row 2 'tbc: --install takes a folder' '' built/tbc --install
row 3 '*tbc: write fault' '' built/tbc --install hello.bas/bin
row 3 'tbc: the proved program is not built yet: ./tbc --build first' '' unbuilt/tbc --install "$work/bin"

# The emulator, and one that writes what it is started with
row 3 'tbc: x64sc is not there: *' '' env PATH="$work/nowhere" "$BASH" built/tbc vice hello.prg
mkdir emulator
printf '#!/bin/sh\necho x64sc "$@"\n' >emulator/x64sc
chmod +x emulator/x64sc
PATH=$work/emulator:$PATH
touch game.prg named.prg named.labels watched.prg watched.watch named.watch
row 0 '' 'x64sc -autostart game.prg' built/tbc vice game.prg
row 0 '' 'x64sc -autostart named.prg -moncommands named.labels' unbuilt/tbc vice named.prg
row 0 '' 'x64sc -autostart watched.prg -moncommands watched.watch' unbuilt/tbc vice --watch watched.prg
row 0 '' 'x64sc -autostart watched.prg' built/tbc vice watched.prg
row 0 '' 'x64sc -autostart named.prg -moncommands /dev/fd/*' built/tbc vice --watch named.prg
row 3 'tbc: game.watch is not there: tbc build SOURCE game.prg --watch game.watch writes it' '' built/tbc vice --watch game.prg
row 3 'tbc: read fault' '' built/tbc vice nowhere.prg
row 3 'tbc: read fault' '' built/tbc vice --watch nowhere.prg
row 2 'tbc: vice takes a PRG file' '' built/tbc vice --watch
row 2 'tbc: vice takes a PRG file' '' built/tbc vice game.prg watched.prg
row 2 'tbc: vice takes a PRG file' '' built/tbc vice

# A copy that isn't built, with no toolchain at all: texts come at once, and are the program's
"$root/tools/compare/help_text.sh" >texts
is_so 'tools/help.txt is not what the program says (tools/compare/help_text.sh >tools/help.txt)' cmp texts "$root/tools/help.txt"
row 0 '' "$(plain "$("$tbc" --version)")" unbuilt/tbc --version
row 0 '' "$(plain "$("$tbc" -V)")" unbuilt/tbc -V
row 0 '' "$(plain "$("$tbc" --help)")*--test *--build *--install DIR *vice FILE.prg *" unbuilt/tbc --help
row 0 '' "$(plain "$("$tbc" -h)")*--build *" unbuilt/tbc -h
row 0 '' "$(plain "$("$tbc" build -h)")" unbuilt/tbc build -h
row 2 "$(plain "$("$tbc" 2>&1 || true)")" '' unbuilt/tbc
row 0 '' "$(plain "$("$tbc" version)")" unbuilt/tbc version
row 0 '' "$(plain "$("$tbc" help)")*--build *" unbuilt/tbc help
row 0 '' "$(plain "$("$tbc" help debug)")" unbuilt/tbc help debug

# So does what it says to words that are no command, with the names that are near
"$tbc" --help | sed -n '/^Commands:/,/^$/ s/^  \([a-z]*\) .*/\1/p' >names
while read -r name; do
    for ((at = 0; at < ${#name}; at++)); do
        echo "${name:0:at}${name:at+1}"
        echo "${name:0:at}${name:at+1:1}${name:at:1}${name:at+2}"
        echo "${name:0:at}x${name:at}"
    done
done <names | grep -vxFf names >near
for word in jump game.bas ./game.bas a/b '&' 'a b' é --jump 'help jump' 'help a/b' $(<near); do
    "$tbc" $word >/dev/null 2>texts || true
    row 2 "$(plain "$(<texts)")" '' unbuilt/tbc $word
done
row 2 '' "*unrecognized subcommand 'game.bas'*tbc: note: to run a source: tbc run game.bas"* at_terminal unbuilt/tbc game.bas
row 2 '' "*unrecognized subcommand 'game.bas'*tbc: note: to run a source: tbc run game.bas"* at_terminal built/tbc game.bas
row 2 '' "*unrecognized subcommand 'game.prg'*try '--help'."* at_terminal unbuilt/tbc game.prg
command -v rt >/dev/null || row 3 'tbc: the proved program is not built yet, and the command rt *; a package of tbc needs none' '' unbuilt/tbc run hello.bas

# And so are words that can't be right: an option that a command doesn't have, a file that is wanting, or that isn't there
printf 'RTS\n' >hello.s
for words in play run build dis disk check 'renumber --from 20' 'profile --html page.html'; do
    row 2 $'error: the following required arguments were not provided:\n  <*>*\n\nUsage: tbc '"${words%% *}"' *' '' unbuilt/tbc $words
done
row 2 "error: unexpected argument '--fitt' found"$'\n\nUsage: tbc run *' '' unbuilt/tbc run hello.bas --fitt
row 2 "error: unexpected argument '--seed' found"$'\n\nUsage: tbc dis *' '' unbuilt/tbc dis --seed=1 game.prg
for words in 'run nowhere.bas' 'play nowhere.bas --limit 9' 'build nowhere.bas out.prg' 'dis nowhere.prg' 'asm --at c000 nowhere.s'; do
    row 3 'tbc: read fault' '' unbuilt/tbc $words
done

# Trial runs: what the toolchain says of itself does not show, and files are found from its own folder
PATH=$work/stub:$real_path
export AS=answer
trial='tbc: the proved program is not built yet (./tbc --build): a trial run, not proved, takes *'
row 5 "$trial"$'\n''tbc: step limit' SHOWN unbuilt/tbc run hello.bas
words() { # WORD..: what the program of a trial run was started with
    rows=$((rows + 1))
    [[ $(sed '1,/^--$/d' stub/words | tr '\n' ' ') == "$* " ]] && return
    failed=$((failed + 1))
    echo "a trial run was started with $(tr '\n' ' ' <stub/words), wanted $*"
}
words run "$work/hello.bas"
is_so "a trial run compiles $(<stub/lines) lines, which are more than $largest" test "$(<stub/lines)" -le $largest
row 5 '*' SHOWN unbuilt/tbc run --keys 31 hello.bas --seed=3
words run --keys 31 "$work/hello.bas" --seed=3
row 5 '*' SHOWN unbuilt/tbc run --prg game.prg --limit 5
words run --prg "$work/game.prg" --limit 5
row 5 '*' SHOWN unbuilt/tbc run --prg=game.prg
words run --prg="$work/game.prg"
row 5 '*' SHOWN unbuilt/tbc run "--prg=$work/game.prg"
words run --prg="$work/game.prg"
row 5 '*' SHOWN unbuilt/tbc asm hello.s out.prg --at c000
words asm "$work/hello.s" "$work/out.prg" --at c000
row 5 '*' SHOWN unbuilt/tbc run hello.bas --keys-file game.keys
words run "$work/hello.bas" --keys-file "$work/game.keys"
row 5 '*' SHOWN unbuilt/tbc play --record=game.keys hello.bas
words play --record="$work/game.keys" "$work/hello.bas"
printf '50\nno\n' | unbuilt/tbc play hello.bas >/dev/null 2>&1 || true
is_so 'what is typed does not reach the program that is played' test "$(<stub/input)" = $'50\nno'
printf 's\nq\n' | unbuilt/tbc step hello.bas >/dev/null 2>&1 || true
is_so 'the commands of step do not reach the program' test "$(<stub/input)" = $'s\nq'
AS=whole row 5 "$trial"$'\n''tbc: step limit' SHOWN unbuilt/tbc run hello.bas
is_so 'what can be run is not the program itself if it is not one command alone' grep -q "^$work/unbuilt/crates/tbc\$" stub/words
AS=silent row 3 "$trial"$'\n''tbc: the trial run had not ended after * s: ./tbc --build first, *' '' unbuilt/tbc run hello.bas
AS=refuses row 3 "$trial"$'\n''tbc: the trial run has no answer: see *' '' unbuilt/tbc run hello.bas
beyond='needs the proved program, which is not built yet: ./tbc --build first'
row 3 "tbc: a run of up to 1000000000 events $beyond" '' unbuilt/tbc run hello.bas --limit 1000000000
row 3 "tbc: a run of up to 1000000000 events $beyond" '' unbuilt/tbc run --limit=1000000000 hello.bas
row 3 '' "tbc: play at a keyboard $beyond"* at_terminal unbuilt/tbc play hello.bas
row 3 '' "tbc: step at a keyboard $beyond"* at_terminal unbuilt/tbc step hello.bas

# What is stale: other sources, definitions and lists of crates of what the program is made of, older or newer, and
# files that are gone or new; and nothing else
mkdir -p built/crates/tb_words/proofs
echo >>built/crates/tb_words/proofs/Lib.antt
echo >>built/crates/tb_tools_bench/src/main.rt
touch built/crates/tb_words/src/lib.rt
row 0 '' HELLO built/tbc run hello.bas
stale() { row 5 "tbc: the proved program was made from another $1 (./tbc --build): *" SHOWN built/tbc run hello.bas; } # FILE
for file in crates/tb_words/src/lib.rt crates/tb_memmap/specs/Lib.antt crates.txt; do
    cp -p "built/$file" was
    echo >>"built/$file"
    touch -d '1 year ago' "built/$file"
    stale "$file"
    mv was "built/$file"
done
row 0 '' HELLO built/tbc run hello.bas
mv built/crates/tb_words/src/lib.rt was
stale crates/tb_words/src/lib.rt
mv was built/crates/tb_words/src/lib.rt
touch built/crates/tb_words/src/new.rt
stale crates/tb_words/src/new.rt
rm built/crates/tb_words/src/new.rt

# Building: how far it is, what it took, the first crate that fails, and no prover still running
AS=good row 0 'tbc: proving the * crates of the program, * side by side
tbc: 2 of * crates done, *
tbc: built in * s: */out/tbc' '' unbuilt/tbc --build
row 0 '' HELLO unbuilt/tbc run hello.bas
AS=good row 0 'tbc: proving the *; last time 1 of them took 0 min * s*' '' unbuilt/tbc --build
AS=bad row 3 '*tbc: tb_words is not proved: see */out/build.log' '' unbuilt/tbc --build
AS=killed row 3 '*tbc: the memory did not suffice for tb_words; ./tbc --build goes on there, *' '' unbuilt/tbc --build
started() { # waits for the toolchain's pid
    for ((i = 0; i < 100; i++)); do [ -s stub/pid ] && break || sleep 0.1; done
}
rm -f unbuilt/crates/tbc/out/tbc
for words in --build 'run hello.bas' 'play hello.bas'; do
    for signal in INT TERM HUP PIPE; do
        rm -f stub/pid
        AS=long interruptible unbuilt/tbc $words >/dev/null 2>&1 &
        started
        [ $signal = INT ] && kill -INT -- "-$!" || kill -$signal "$!"
        wait "$!" || true
        is_so "$words leaves a prover when it gets $signal" test ! -d "/proc/$(<stub/pid)"
    done
done
rm -f stub/pid
AS=slow unbuilt/tbc --build 2>&1 >/dev/null | head -n 1 >/dev/null
is_so 'a build whose pipe is closed leaves a prover' test ! -d "/proc/$(<stub/pid)"

# Trial runs by the toolchain itself: the first answer of all, and one with an option
PATH=$real_path
children_seconds() { awk 'NR == 2 { split($1, user, /[ms]/); split($2, kernel, /[ms]/); print (user[1] + kernel[1]) * 60 + user[2] + kernel[2] }' "$1"; }
times >times_before
row 0 "$trial" HELLO unbuilt/tbc run hello.bas
times >times_after
[ "$clocked" != --times ] ||
    echo "the first answer, with nothing built, takes $(awk -v before="$(children_seconds times_before)" -v after="$(children_seconds times_after)" \
        'BEGIN { printf "%.1f", after - before }') s of processor time"
row 0 "$trial" HELLO unbuilt/tbc run --seed 1 hello.bas

echo "$rows calls of ./tbc, $failed other than they should be"
[ "$failed" = 0 ]
