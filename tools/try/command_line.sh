#!/usr/bin/env bash
# Tries the built program as a user does: every exit status and every text on standard error at least once, except that
# of running out of memory (tools/try/refused_growth.sh). OUT must be written if the status is 0, and else be what it was.
# Prints what differs, and then ends with status 1.
. "$(dirname "${BASH_SOURCE[0]}")/../setup.sh"
needs_program
needs python3
needs prlimit
with_step=yes

rows=0
failed=0
from=/dev/null
to=shown
out=out.prg # OUT, which holds something else before each row
elsewhere=  # yes: a row writes another file than OUT
by=() # what starts the program, if it is not the shell
old() { # WORD..: prints what OUT holds before a row: it looks like what the command writes
    case ${1:-} in
        build) printf '\x01\x08\x0b\x08\x0a\x00\x9e2061\x00\x00\x00old' ;;
        asm) if [[ "$* " =~ \ --at[\ =]([0-9a-fA-F]{2})([0-9a-fA-F]{2})\  ]]; then printf '%b' "\\x${BASH_REMATCH[2]}\\x${BASH_REMATCH[1]}\xff"; fi ;;
        disk) head -c 174848 /dev/zero ;;
        *) printf old ;;
    esac
}

row() { # STATUS SAID SHOWN WORD..: SAID and SHOWN are patterns of standard error and output, without the last line end
    local status=0 made=new wanted=$1 said=$2 shown=$3 wanted_made=old
    shift 3
    case $elsewhere$wanted:${1:-} in 0:build | 0:asm | 0:disk) wanted_made=new ;; esac
    rows=$((rows + 1))
    old "$@" | tee old.prg >"$out"
    : >shown
    "${by[@]}" "$tbc" "$@" <"$from" >"$to" 2>said || status=$?
    ! cmp -s old.prg "$out" || made=old
    [[ $status == "$wanted" && $(<said) == $said && $(<shown) == $shown && $made == "$wanted_made" ]] && return
    failed=$((failed + 1))
    printf 'tbc %s\n  status %s, wanted %s\n  said %q, wanted %q\n  shown %q, wanted %q\n  OUT is %s, wanted %s\n' \
        "$*" "$status" "$wanted" "$(<said)" "$said" "$(<shown)" "$shown" "$made" "$wanted_made"
}

same() { # FILE OTHER: a row: both have the same bytes
    rows=$((rows + 1))
    cmp -s "$1" "$2" && return
    failed=$((failed + 1))
    printf '%s has not the bytes of %s: %q\n' "$1" "$2" "$(head -c 80 "$1")"
}

holds() { # FILE TEXT: a row
    file wanted "$2"
    same "$1" wanted
}

built() { # SHOWN WORD..: rows: a call of `build`, and a run of the PRG file that it wrote
    row 0 '' '' build "${@:2}"
    cp out.prg built.prg
    row 0 '' "$1" run --prg built.prg
}

steps_to() { # END SOURCE: how many steps the stepper takes until its answer ends in END
    "$tbc" step "$2" < <(yes s | head -n 5000) >walk
    grep -n -m 1 " $1\$" walk | cut -d : -f 1
}

file() { printf '%b' "$2" >"$1"; } # NAME TEXT

each() { # STATUS FILE WORD..: a row for each line 'SAID|TEXT' of standard input, with TEXT in FILE
    local status=$1 name=$2 said text
    shift 2
    while IFS='|' read -r said text; do
        file "$name" "$text"
        row "$status" "tbc: $said" '' "$@"
    done
}

file hello.bas '10 PRINT "HELLO"\n20 END\n'
file wait.bas '10 PRINT "A"\n20 INPUT A\n30 PRINT A*2\n'
file forever.bas '10 PRINT "A"\n20 GOTO 20\n'
file warn.bas '10 PRINT "A"\n20 GOTO 30\n'
file both.bas '10 GOSUB 10\n20 GOSUB 300\n30 GOTO 400\n'
file ask.bas '10 INPUT A\n20 GOTO 30\n'
file far.bas '10 A=30\n20 GOTO A\n30 PRINT "FAR";RND(100)\n40 GOTO A+20\n50 END\n'
file routine.s 'LDA #$48\nJSR $FFD2\nRTS\n'
file routine.prg '\x00\xc0\xa9\x48\x20\xd2\xff\x60'
file echo.prg '\x00\xc0\x20\xcf\xff\x20\xd2\xff\x4c\x00\xc0'
file poll.prg '\x00\xc0\x20\xe4\xff\x20\xd2\xff\x60'
file once.prg '\x00\xc0\x20\xcf\xff\x20\xd2\xff\x60'
file double.bas '10 INPUT A\n20 PRINT A*2\n30 GOTO 10\n'
file spoilt.prg '\x00\xc0\xa2\x41\xa9\x2e\x20\xd2\xff\x8a\x20\xd2\xff\x60'
mkdir folder

. "$root/tools/try/command_line/doing.sh"
. "$root/tools/try/command_line/refusing.sh"
. "$root/tools/try/command_line/checking.sh"
. "$root/tools/try/command_line/editing.sh"
. "$root/tools/try/command_line/words.sh"
. "$root/tools/try/command_line/files.sh"
. "$root/tools/try/command_line/running.sh"
. "$root/tools/try/command_line/stepping.sh"
. "$root/tools/try/command_line/signs.sh"
. "$root/tools/try/command_line/own.sh"
. "$root/tools/try/command_line/pages.sh"
. "$root/tools/try/command_line/testing.sh"

echo "$rows calls of tbc, $failed other than they should be"
[ "$failed" = 0 ]
