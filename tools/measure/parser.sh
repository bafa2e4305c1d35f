#!/usr/bin/env bash
# Measures `tbc build` on sources of 1,048,576 bytes, the most that it reads. None of them compiles (most are too
# large), so this is the time to read, parse, lower and refuse them, from the start of the process to its end.
#
#   tools/measure/parser.sh [ROUNDS]    default: 10 rounds; needs valgrind
#
# For each it prints the processor time and that of `wc` on the same file, the least address space in which it gives
# the same answer, the counted instructions of this processor per byte, and what tbc says of the source.
. "$(dirname "${BASH_SOURCE[0]}")/../setup.sh"
needs_program
needs valgrind
rounds=${1:-10}
size=1048576

space() { # FILE: the least address space, in KB up to 64 more, in which tbc still says the same
    local low=0 high=262144 middle
    while ((high - low > 64)); do
        middle=$(((low + high) / 2))
        (ulimit -v "$middle" && exec "$tbc" build "$1" out.prg) >/dev/null 2>again || true
        if cmp -s said again; then high=$middle; else low=$middle; fi
    done
    echo "$high"
}

times() { printf "$2%.0s" $(seq "$1"); } # COUNT TEXT

lines() { # STATEMENT: numbered lines, as many as fit, and then the byte 10 up to the size
    awk -v statement="$1" -v size=$size 'BEGIN {
        for (;;) {
            line = ++number " " statement
            if (number == 32767) number = 0
            if (length(line) >= size) break
            print line
            size -= length(line) + 1
        }
        while (size-- > 0) printf "\n"
    }'
}

measure() { # WHAT FILE
    local status=0
    [ "$(wc -c <"$2")" = $size ] || { echo "$1: not $size bytes" >&2; exit 1; }
    "$tbc" build "$2" out.prg 2>said || status=$?
    [ "$status" = 1 ] || { echo "$1: status $status" >&2; exit 1; }
    awk -v what="$1" -v a="$(processor_time "$rounds" "$tbc" build "$2" out.prg)" -v b="$(processor_time "$rounds" wc "$2")" \
        -v space="$(space "$2")" -v count="$(counted "$tbc" build "$2" out.prg)" -v size=$size -v said="$(<said)" \
        'BEGIN { printf "%s: %.0f ms, wc %.1f ms, ratio %.1f; %.1f MB; %.0f instructions a byte; %s\n",
            what, a, b, a / b, space / 1024, count / size, said }'
}

lines END >short.bas
lines "A=$(times 119 1+)1" >literals.bas
lines "A=$(times 115 '(')1$(times 115 ')')" >deep.bas
lines "PRINT \"$(times 235 X)\"" >texts.bas
lines "$(times 40 IFA=A)END" >nested.bas
head -c $size /dev/zero | tr '\0' ' ' >spaces.bas
{ head -c $((size - 6)) short.bas && printf '\n1 A=\177'; } >bad.bas

measure "short lines" short.bas
measure "120 literals a line" literals.bas
measure "115 parentheses deep" deep.bas
measure "long texts" texts.bas
measure "40 IF a line" nested.bas
measure "spaces" spaces.bas
measure "a bad byte in the last line" bad.bas
