#!/usr/bin/env bash
# Measures how long `tbc debug` takes to go on by some events, and then to go back by a line.
#
#   tools/measure/debugger.sh [EVENTS]        default: 100000000 events; needs the built program
#   tools/measure/debugger.sh --instructions  how many instructions of this processor `debug` (going on) and `profile`
#                                             take for an event, beside `run`; needs valgrind, and ends with status 1
#                                             if one of them takes more than 2.0 times as many as `run`, or `test` more
#                                             than 300 million for the transcripts of the examples
. "$(dirname "${BASH_SOURCE[0]}")/../setup.sh"
needs_program
events=${1:-100000000}

printf '%s\n' '10 LET A=0' '20 LET A=A+1' '30 LET B=A*2' '40 IF B>20000 THEN LET A=0' '50 GOTO 20' >count.bas

each_event() { # WORD..: the instructions that a command takes for an event, by what a million of them more take
    awk -v few="$(counted "$@" --limit 200000 <go_on)" -v many="$(counted "$@" --limit 1200000 <go_on)" \
        'BEGIN { printf "%.1f\n", (many - few) / 1e6 }'
}

if [ "$events" = --instructions ]; then
    installs valgrind valgrind
    echo c >go_on
    run=$(each_event "$tbc" run count.bas)
    status=0
    most=2.0
    most_of_tests=300
    for tool in debug profile; do
        own=$(each_event "$tbc" "$tool" count.bas)
        awk -v tool="$tool" -v most="$most" -v own="$own" -v run="$run" 'BEGIN {
            printf "%s: %.1f instructions an event, run %.1f, %.2f times as many\n", tool, own, run, own / run
            exit own > most * run
        }' || status=1
    done
    awk -v most="$most_of_tests" -v own="$(counted "$tbc" test "$root/examples")" 'BEGIN {
        printf "test: %.0f million instructions for the transcripts of the examples\n", own / 1e6
        exit own > most * 1e6
    }' || status=1
    exit "$status"
fi

coproc debugger { "$tbc" debug count.bas --limit "$events"; }

answered() { # COMMAND: the microseconds up to its answer, which ends when that to a second command comes
    local began line=
    began=$(now)
    printf '%s\ne 4711\n' "$1" >&"${debugger[1]}"
    until [ "$line" = 4711 ]; do read -r line <&"${debugger[0]}"; done
    echo $(($(now) - began))
}

echo "on by $events events: $(answered c) us"
for _ in 1 2 3 4 5 6 7 8 9 10; do answered p; done >back.us
echo "back by a line, the slowest of ten: $(sort -n back.us | tail -1) us"
