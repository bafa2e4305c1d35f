#!/usr/bin/env bash
# Compares the cycles and times of `tbc profile` with what sim65 (of cc65) counts, exactly: for the examples that come
# to an end, with keys, for the first half of the programs in tools/measure/bench, and for random programs with loops
# (foreign/looping_programs.py).
#
# In sim65 CHROUT is an RTS, as `profile` counts it. GETIN takes 2 cycles more, and is called once a line, so the sum of
# times is compared too; CHRIN takes 17 more, and its calls are the exit status. What comes before and after the program
# is taken from a PRG that is an RTS alone.
#
# sim65 (of cc65 2.19) judges a branch that is taken by the page of its own first byte, and not by that of the next
# instruction, so a program that takes a branch at the end of a page is left out, and counted.
#
#   tools/try/cycles.sh [COUNT] [SEED]    how many random programs; 30 by default
. "$(dirname "${BASH_SOURCE[0]}")/../setup.sh"
needs_program
needs python3
installs sim65 cc65
. "$root/tools/sim65.sh"

# The whole of the runs around a program, which is 6 cycles of its own: no key is read.
printf '\001\010' >empty.prg
zeros 12 >>empty.prg
printf '\140' >>empty.prg
image empty.prg '' >empty.sim
read -r around _ < <(counts empty.sim)
around=$((around - 6))

# Writes a PRG with each branch in the last two bytes of a page turned into one to its own second byte, $FF, which is no
# opcode: whoever takes it stops. Fails if there is no such branch.
stopped_at_page_ends() { # PRG TO
    "$tbc" dis "$1" >branches.s
    python3 - "$1" "$2" <<'END'
import re
import sys
from pathlib import Path

file = bytearray(Path(sys.argv[1]).read_bytes())
found = re.findall(r"^(?:B(?:CC|CS|EQ|MI|NE|PL|VC|VS)) .* ; ([0-9A-F]{2}F[EF])$", Path("branches.s").read_text(), re.M)
ends = [int(at, 16) for at in found if int(at, 16) % 256 >= 0xFE]
for at in ends:
    file[2 + at + 1 - 0x0801] = 0xFF
Path(sys.argv[2]).write_bytes(file)
sys.exit(0 if ends else 1)
END
}

takes_branch_at_page_end() { # NAME KEYS
    stopped_at_page_ends "$1.prg" stopped.prg || return
    image "$1.prg" "$2" >as_it_is.sim
    image stopped.prg "$2" >stopped.sim
    [ "$(counts as_it_is.sim)" != "$(counts stopped.sim)" ]
}

agrees() { # NAME KEYS TIMES CYCLES: sim65 counts as many for NAME.prg as `profile`
    local there keys wanted
    image "$1.prg" "$2" >"$1.sim"
    read -r there keys < <(counts "$1.sim")
    wanted=$(($4 + around + 2 * $3 + 17 * keys))
    echo "$1: sim65 counts $there, profile $4 and $3 times, so that sim65 should count $wanted" >said
    [ "$there" = "$wanted" ]
}

rows=0
failed=0
left_out=0
program() { # SOURCE KEYS
    local name typed status=0 times cycles
    name=$(basename "$1" .bas)
    typed=$(printf "$2" | od -An -v -tx1 | tr -d ' \n')
    "$tbc" build "$1" "$name.prg"
    "$tbc" profile "$1" --keys "$typed" --limit 100000000 >"$name.table" 2>said || status=$?
    [ "$status" = 0 ] || { echo "$name does not end: $(<said)" >&2; failed=$((failed + 1)); return; }
    read -r _ times _ cycles _ < <(tail -n 1 "$name.table")
    if takes_branch_at_page_end "$name" "$2"; then
        left_out=$((left_out + 1))
        return
    fi
    rows=$((rows + 1))
    agrees "$name" "$2" "$times" "$cycles" && return
    failed=$((failed + 1))
    cat said
}

program "$root/examples/cave.bas" '1\r6\r2\r3\r1\r4\r5\r6\r1\r2\r'
program "$root/examples/hamurabi.bas" '30\r0\r0\r2000\r500\r0\r0\r1800\r400\r10\r0\r1500\r300\r'
program "$root/examples/hello.bas" ''
program "$root/examples/primes.bas" ''
program "$root/examples/times.bas" ''
program "$root/examples/lander.bas" '0\r0\r5\r10\r20\r30\r30\r20\r10\r10\r10\r10\r10\r10\r10\r10\r10\r10\r0\r0\r0\r0\r0\r0\r0\r0\r0\r0\r'
for source in "$root"/tools/measure/bench/*.bas; do program "$source" ''; done
python3 "$root/tools/try/foreign/looping_programs.py" . "${1:-30}" "${2:-1}"
for source in looping_*.bas; do program "$source" ''; done
read -r _ times _ cycles _ < <(tail -n 1 hello.table)
if agrees hello '' "$times" $((cycles + 1)); then
    failed=$((failed + 1))
    echo "a cycle too many is not seen"
fi
echo "$rows programs, $failed with other cycles than sim65 counts; $left_out left out"
[ "$failed" = 0 ] && [ "$rows" -ge 20 ]
