#!/usr/bin/env bash
# Measures the machine against sim65 of cc65 on the same 6502 code, and prints the events per second of both, and their
# ratio.
#
#   tools/measure/machine.sh [EVENTS] [ROUNDS]      default: 100000000 events, 5 rounds; needs sim65 (Debian's cc65)
#   tools/measure/machine.sh --instructions         instructions of this processor for each event, and for each of sim65's
#                                                   instructions if it is installed; needs valgrind. Ends with status 1 if
#                                                   an event takes more than it should, or 4 times that of a quiet ROM
#                                                   beside a rude one
#
# Each program runs on the machine (`run` with nothing outside), by the processor's `step` alone and, if the program
# is built, by the command line (`tbc run --prg`).
# The runs go in turn, and the best round of each counts, since other load only ever makes a round longer.
. "$(dirname "${BASH_SOURCE[0]}")/../setup.sh"
trials=$root/crates/tb_tools_bench/out/tb_tools_bench
[ -x "$trials" ] || { echo "build the trials first: cd crates/tb_tools_bench && rt run <stdin" >&2; exit 1; }

# A program for sim65: its mark, version 2, a 6502, stack pointer at 0, load address and start $0C00, and the bytes of
# the program in tb_tools_bench.
mark='sim65\x02\x00\x00\x00\x0c\x00\x0c'
high='sim65\x02\x00\x00\x00\xc0\x00\xc0'
printf "$mark"'\xe8\xd0\xfd\xc8\xd0\xfa\xee\x00\xc0\x4c\x00\x0c' >loop
printf "$mark"'\xad\x00\xc0\x18\x6d\x02\xc0\x8d\x00\xc0\xad\x01\xc0\x6d\x03\xc0\x8d\x01\xc0\xce\x04\xc0\xd0\xe8\x4c\x00\x0c' >sums
printf "$high"'\xe8\xd0\xfd\xc8\xd0\xfa\xee\x00\xc1\x4c\x00\xc0' >high

# The most instructions of this processor that an event may take.
most_of() { # NAME
    case $1 in
        loop | high) echo 36 ;;
        sums) echo 50 ;;
    esac
}

# sim65 stops after a count of cycles: 514 instructions of a loop take 1284, and 9 of the sums take 35.
cycles_of() { # NAME INSTRUCTIONS
    case $1 in
        loop | high) awk -v n="$2" 'BEGIN { printf "%.0f", n * 1284 / 514 }' ;;
        sums) awk -v n="$2" 'BEGIN { printf "%.0f", n * 35 / 9 }' ;;
    esac
}

if [ "${1:-}" = --instructions ]; then
    needs valgrind
    sim65=$(command -v sim65 || true)
    slow=no
    for name in loop sums high; do
        for events in 1000000 2000000; do
            counted "$trials" speed "$name" "$events" >"events.$events"
            counted "$trials" speed "$name" "$events" rude >"rude.$events"
            counted "$trials" speed "$name" "$events" steps >"steps.$events"
            [ -z "$sim65" ] || counted "$sim65" -x "$(cycles_of "$name" "$events")" "$name" >"sim65.$events"
        done
        # the difference leaves out what start and end cost
        for way in events rude steps ${sim65:+sim65}; do
            awk -v name="$name" -v way="$way" '{ count[NR] = $1 }
                END { printf "%s, %s: %.1f instructions each\n", name, way, (count[2] - count[1]) / 1000000 }' "$way.1000000" "$way.2000000"
        done
        awk -v most="$(most_of $name)" '{ count[NR] = $1 } END { exit (count[2] - count[1]) / 1000000 > most }' \
            events.1000000 events.2000000 || slow=$name
        awk '{ count[NR] = $1 } END { exit count[4] - count[3] > 4 * (count[2] - count[1]) }' \
            events.1000000 events.2000000 rude.1000000 rude.2000000 || slow=$name
    done
    [ "$slow" = no ] || echo "an event of $slow should take $(most_of "$slow") at most, and 4 times that of a quiet ROM beside a rude one" >&2
    [ "$slow" = no ] || exit 1
    exit
fi

needs sim65
events=${1:-100000000}
rounds=${2:-5}

# The same as a PRG file, which starts at $080D: its load address and its BASIC line, 10 SYS2061.
line='\x01\x08\x0b\x08\x0a\x00\x9e2061\x00\x00\x00'
printf "$line"'\xe8\xd0\xfd\xc8\xd0\xfa\xee\x00\xc0\x4c\x0d\x08' >loop.prg
printf "$line"'\xad\x00\xc0\x18\x6d\x02\xc0\x8d\x00\xc0\xad\x01\xc0\x6d\x03\xc0\x8d\x01\xc0\xce\x04\xc0\xd0\xe8\x4c\x0d\x08' >sums.prg
printf '\x00\xc0\xe8\xd0\xfd\xc8\xd0\xfa\xee\x00\xc1\x4c\x00\xc0' >high.prg
ways='steps events'
[ ! -x "$tbc" ] || ways="$ways line"

best() { sort -n "$1.us" | head -1; }

for name in loop sums high; do
    cycles=$(cycles_of "$name" "$events")
    for _ in $(seq "$rounds"); do
        timed "$name.events" "$trials" speed "$name" "$events"
        timed "$name.steps" "$trials" speed "$name" "$events" steps
        [ ! -x "$tbc" ] || timed "$name.line" "$tbc" run --prg "$name.prg" --limit "$events" # ends at the limit
        timed "$name.sim65" sim65 -x "$cycles" "$name" # ends with a status of its own when the cycles are used up
    done
    for way in $ways; do
        awk -v name="$name" -v way="$way" -v n="$events" -v a="$(best "$name.$way")" -v b="$(best "$name.sim65")" \
            'BEGIN { if (way == "line") way = "events by the command line"
                printf "%s: %.0f million %s a second, sim65 %.0f, ratio %.2f\n", name, n / a, way, n / b, b / a }'
    done
done
