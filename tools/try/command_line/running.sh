# shellcheck shell=bash disable=SC2034,SC2154
# Limits of runs, key files, and playing.
# A part of tools/try/command_line.sh, which has the calls.

# Runs that end otherwise
row 5 'tbc: step limit' A run forever.bas
row 6 'tbc: waits for a key' 12 run --prg echo.prg --keys 3132
row 6 'tbc: waits for a key' $'A\n\\? ' run wait.bas
row 6 'tbc: waits for a key' $'A\n\\? ' run wait.bas --keys 3132
each 7 wrong.prg run --prg wrong.prg <<'END'
wrong: unknown opcode at C000|\x00\xc0\x02
wrong: bad decimal at C003|\x00\xc0\xf8\xa9\x0a\x69\x01
wrong: closed address D020 at C002|\x00\xc0\xa9\x05\x8d\x20\xd0
wrong: brk at C001|\x00\xc0\xea\x00
END

# A limit is the number of events that a run may take, and no other: this routine takes four
row 0 '' H run --prg routine.prg --limit 4
row 5 'tbc: step limit' H run --prg routine.prg --limit 3

# Key files
printf '%0*d' 2097152 0 >most.keys
for end in '' '\n' '\r\n'; do
    file some.keys "32310D$end"
    row 0 '' $'A\n? \n42\n\n!7 AT 30' run wait.bas --keys-file some.keys
done
file no.keys '\n'
row 6 'tbc: waits for a key' $'A\n\\? ' run wait.bas --keys-file no.keys
{ cat most.keys && printf '\r\n'; } >end.keys
{ cat most.keys && printf 00; } >digits.keys
row 0 '' A run --prg poll.prg --keys-file end.keys --answers 41
row 0 '' A run --prg poll.prg --keys-file digits.keys --answers 41
{ cat end.keys && printf '\n'; } >more.keys
row 2 'tbc: bad key list' '' run nowhere.bas --keys-file more.keys
each 2 bad.keys run nowhere.bas --keys-file bad.keys <<'END'
bad key list|0
bad key list|0g
bad key list| 00
bad key list|00\r
bad key list|00\n\n
END
row 3 'tbc: read fault' '' run nowhere.bas --keys-file nowhere.keys
row 3 'tbc: read fault' '' run hello.bas --keys-file folder
row 2 'tbc: bad key list' '' run hello.bas --keys-file nowhere.keys --answers 0
row 2 'error: *' '' run hello.bas --keys 00 --keys-file no.keys
row 2 'tbc: bad key list' '' step nowhere.bas --keys-file bad.keys

# Playing: what is typed, and what is recorded of it
plays() { # STATUS SAID SHOWN RECORD TYPED WORD..: rows: a call of `play`, and a run on what it recorded
    local status=$1 said=$2 shown=$3 record=$4
    file typed "$5"
    from=typed
    row "$status" "$said" "$shown" play "${@:6}" --record out.keys
    from=/dev/null
    holds out.keys "$record"
    cp shown played
    row "$status" "$said" "$shown" run "${@:6}" --keys-file out.keys
    same shown played
}
rest() { # SHOWN TYPED WORD..: rows: what `play` and then `cat` show, of a file and of a pipe
    file typed "$2"
    { "$tbc" play "${@:3}" && cat; } <typed >shown
    holds shown "$1"
    cat typed | { "$tbc" play "${@:3}" && cat; } >shown
    holds shown "$1"
}
plays 6 'tbc: waits for a key' '\? ' '\n' '' double.bas
plays 6 'tbc: waits for a key' $'\\? \n2\n\\? \n4\n\\? ' '310d320d\n' '1\n2\r\n' double.bas
plays 6 'tbc: waits for a key' $'\\? \n8\n\\? ' '340d\n' 4 double.bas
plays 0 '' $'\\? \n!6 AT 10' '580d\n' 'x\ny\n' double.bas
plays 6 'tbc: waits for a key' $'AB1\n{7B}Z' '4142310d7b5a0d\n' 'aB1\n{z\r' --prg echo.prg
plays 6 'tbc: waits for a key' '' '0d0d0d0d\n' '\n\r\n\r\r\n' --prg echo.prg
plays 0 '' HELLO '\n' 'unread\n' hello.bas
plays 0 '' FAR95 '\n' '' far.bas --seed 2
plays 5 'tbc: step limit' A '\n' '' forever.bas --limit 5000
file wrong.prg '\x00\xc0\x20\xcf\xff\xea\x00'
plays 7 'tbc: wrong: brk at C004' '' '380d\n' '8\n' --prg wrong.prg
rest 'A\n? \n14\n\n!7 AT 30\n8\n9' '7\n8\n9' wait.bas
rest 'Qrest\n' 'q\r\nrest\n' --prg once.prg
rest 'HELLO\nall\n' 'all\n' hello.bas

# Strict runs: a fault has a status of its own, and nothing else is another one
file slip.bas '10 FOR I=1 TO 10\n'
strict_runs() { # WORD..: rows of `run` and `play`, strict
    row 0 '' HELLO "$@" hello.bas
    row 8 '' $'\n!2 AT 20' "$@" part.bas
    row 0 '' '!2 AT 10' "$@" alike.bas
    row 5 'tbc: step limit' A "$@" forever.bas --limit 5000
    row 6 'tbc: waits for a key' $'A\n\\? ' "$@" wait.bas
    row 8 'tbc: warning: line 20: no line 30' $'A\n\n!1 AT 20' "$@" warn.bas
    row 3 'tbc: read fault' '' "$@" nowhere.bas
    row 1 'tbc: 1:4: syntax' '' "$@" slip.bas
    row 2 'error: *' '' "$@" --prg routine.prg
    to=/dev/full
    row 3 'tbc: write fault' '' "$@" part.bas
    to=shown
}
strict_runs run --strict
strict_runs play --strict
row 8 '' $'A\n? \n42\n\n!7 AT 30' run --strict wait.bas --type '21\n'
row 8 '' $'\n!0 AT 10' run --strict hello.bas --answers 03
row 8 '' $'\n!2 AT 20' run --strict part.bas --rude 7
file typed 'x\ny\n'
from=typed
row 8 '' $'\\? \n!6 AT 10' play --strict double.bas --record out.keys
holds out.keys '580d\n'
row 3 'tbc: write fault' $'\\? \n!6 AT 10' play --strict double.bas --record folder
from=/dev/null
row 2 'error: *' '' play --strict --screen hello.bas
for word in build step debug profile check; do row 2 'error: *' '' $word hello.bas --strict; done

# A seed by the clock; without a terminal nothing is said of it
row 0 '' 'FAR*' run far.bas --seed time
row 0 '' 'FAR*' play far.bas --seed=time
row 0 '' '' build hello.bas out.prg --seed time
row 0 '' H run --prg routine.prg --seed time
row 2 "error: invalid value 'noon' for '--seed <N>': not 0 to 65535, and not time*" '' run hello.bas --seed noon
row 2 "error: invalid value '65536' for '--seed <N>': not 0 to 65535, and not time*" '' play hello.bas --seed 65536

# The machine's screen is shown at a terminal alone (tools/try/screen_play.py); no file is opened before that is known
row 2 'tbc: not a terminal' '' play --screen hello.bas
row 2 'tbc: not a terminal' '' play nowhere.bas --screen --record nowhere/out.keys

# Labels of a PRG file are read before it is; without a terminal they show nothing
file some.labels 'al C:c000 .start\nal C:c005 .end\n'
row 0 '' H run --prg routine.prg --labels some.labels
row 5 'tbc: step limit' H run --labels=some.labels --prg routine.prg --limit 3
row 0 '' '*' debug --prg routine.prg --labels some.labels
row 3 'tbc: read fault' '' run --prg nowhere.prg --labels some.labels
for words in 'run --prg nowhere.prg' 'debug --prg nowhere.prg'; do
    row 3 'tbc: read fault' '' $words --labels nowhere.labels
    each 1 bad.labels $words --labels bad.labels <<'END'
bad labels|al C:c000 .start\nRTS\n
bad labels|al C:c00 .start
END
done
row 2 'tbc: bad key list' '' run --prg routine.prg --labels nowhere.labels --keys 0
for words in 'run hello.bas' 'debug hello.bas' 'step --prg routine.prg' 'profile --prg routine.prg' 'play --prg routine.prg'; do
    row 2 'error: *' '' $words --labels some.labels
done

# The limit is that of one line
yes 1 | head -n 40 >typed
from=typed
row 6 'tbc: waits for a key' '*2*' play double.bas --limit 300
row 5 'tbc: step limit' '' play double.bas --limit 100
row 0 'tbc: warning: line 20: no line 30' $'\\? \n\n!1 AT 20' play ask.bas
from=/dev/null

# All that may be typed, and one byte more
head -c 1048575 /dev/zero | tr '\0' a >most.typed
{ cat most.typed && printf a; } >more.typed
from=most.typed
row 0 '' A play --prg once.prg --record out.keys
row 0 '' A run --prg once.prg --keys-file out.keys
file out.keys 6f6c64
from=more.typed
row 3 'tbc: read fault' '' play --prg once.prg --record out.keys
from=folder
row 3 'tbc: read fault' '\? ' play double.bas --record out.keys
from=/dev/null
row 3 'tbc: read fault' '' play nowhere.bas --record out.keys
row 2 'tbc: same file twice' '' play hello.bas --record hello.bas
row 2 'tbc: same file twice' '' play --prg once.prg --record once.prg
row 3 'tbc: read fault' '' play --prg nowhere.prg --record out.keys
row 1 'tbc: not a PRG: runs past the end' '' play --prg bad.prg --record out.keys
refused_sources play SOURCE --record out.keys
to=/dev/full
row 3 'tbc: write fault' '' play hello.bas --record out.keys
row 3 'tbc: write fault' '' play --prg routine.prg
to=shown
holds out.keys 6f6c64
for name in /dev/full nowhere/out.keys folder; do row 3 'tbc: write fault' HELLO play hello.bas --record $name; done
row 2 'error: *' '' play
row 2 'error: *' '' play hello.bas --keys 00

# Output is written while a program runs
file chatty.bas '10 PRINT "HELLO"\n20 GOTO 10\n'
"$tbc" build chatty.bas chatty.prg
comes_early() { # WORD..: a row: something is written long before the end
    local runs
    rows=$((rows + 1))
    : >early
    "$tbc" "$@" --limit 1000000000 >early 2>said </dev/null &
    runs=$!
    until [ -s early ] || ! kill -0 $runs 2>said; do sleep 0.02; done
    if kill $runs 2>said && [[ $(head -n 1 early) == HELLO ]]; then return; fi
    failed=$((failed + 1))
    printf 'tbc %s\n  writes nothing before its end\n' "$*"
}
comes_early run chatty.bas
comes_early play chatty.bas
comes_early run --prg chatty.prg
comes_early play --prg chatty.prg
