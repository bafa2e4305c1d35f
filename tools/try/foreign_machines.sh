#!/usr/bin/env bash
# Runs compiled programs, and random ones, on machines that are not this project's:
#
#   every example, with keys, and every program of the first half in tools/measure/bench, in sim65 (of cc65): each sends
#     byte for byte what `tbc run` shows, and ends the same way; each service spoils every register and bytes of the
#     ROM's memory (tools/try/foreign/sim65.asm);
#   the same programs on the Commodore 64 of VICE, with a ROM of our own (tools/try/foreign/kernal.asm), and again with
#     their watch files, which never stop. If x64sc is not there, it is unpacked (get_vice.sh); if it can't be had, these
#     runs are left out, and that is said;
#   a program with ROMs that break a rule each (tools/try/foreign/breaches.txt): it sends the same, and the watch stops
#     where it should;
#   random PRGs of 64 bytes here and in sim65: registers and memory are the same (tools/try/foreign/random_programs.py).
#
# Each run has a negative case: a wrong wanted byte must be found.
#
#   tools/try/foreign_machines.sh [COUNT]    how many random PRGs; 20,000 by default
. "$(dirname "${BASH_SOURCE[0]}")/../setup.sh"
needs_program
trials=$root/crates/tb_tools_bench/out/tb_tools_bench
[ -x "$trials" ] || { echo "build the trials first: cd crates/tb_tools_bench && rt run <stdin" >&2; exit 1; }
needs python3
installs sim65 cc65
foreign=$root/tools/try/foreign

rows=0
failed=0
machines=(sim65)
"$tbc" asm "$foreign/sim65.asm" sim65.prg --at A000
if finds_vice; then
    machines+=(vice watched)
    "$tbc" asm "$foreign/kernal.asm" vice.prg --at E000
    cp vice.prg watched.prg
else
    echo "x64sc is not there: the runs in VICE are left out"
fi

same_beside() { # ROM MACHINE NAME KEYS STATUS: NAME.prg sends what NAME.wanted shows, and ends with that status
    python3 "$foreign/foreign_run.py" "$2" "$1" "$3.prg" "$4" "$3.wanted" "$5"
}
same() { same_beside "$1.prg" "$@"; } # MACHINE NAME KEYS STATUS: the same beside the ROM of that machine
typed() { printf "$1" | od -An -v -tx1 | tr -d ' \n'; } # TEXT: its bytes as hexadecimal digits

program() { # SOURCE KEYS OPTION..: a row for each machine; the options are those of `tbc build`
    local name keys status=0 machine
    name=$(basename "$(dirname "$1")")_$(basename "$1" .bas)
    keys=$(typed "$2")
    "$tbc" build "$1" "$name.prg" --watch "$name.watch" "${@:3}"
    "$tbc" run --prg "$name.prg" --keys "$keys" --limit 100000000 >"$name.wanted" 2>said || status=$?
    rows=$((rows + 1))
    case $status in
        0 | 6) ;;
        *) failed=$((failed + 1)) && echo "$name: tbc run ended with status $status: $(<said)" && return ;;
    esac
    for machine in "${machines[@]}"; do
        rows=$((rows + 1))
        same "$machine" "$name" "$keys" "$status" || failed=$((failed + 1))
    done
}

spoilt() { # NAME KEYS STATUS: each machine finds that the last wanted byte is wrong
    local machine
    cp "$1.prg" spoilt.prg
    cp "$1.watch" spoilt.watch
    { head -c -1 "$1.wanted" && printf '?'; } >spoilt.wanted
    for machine in "${machines[@]}"; do
        rows=$((rows + 1))
        if ! same "$machine" spoilt "$(typed "$2")" "$3" >said && grep -q 'another byte' said; then continue; fi
        failed=$((failed + 1))
        echo "a wrong byte is not found in $machine: $(<said)"
    done
}

# A ROM that breaks a rule: vice.prg with other instructions in a service or in an interrupt.
with_breach() { # PLACE INSTRUCTIONS TO
    awk -v place="$1 breaks a rule here" -v those="$2" '
        { print }
        index($0, place) { count = split(those, each, /, +/); for (k = 1; k <= count; k++) print "        " each[k] }
    ' "$foreign/kernal.asm" >breach.asm
    "$tbc" asm breach.asm "$3" --at E000
}

breach() { # NAME PLACE INSTRUCTIONS STOP: NAME.prg sends the same, and its watch stops with these words
    rows=$((rows + 2))
    with_breach "$2" "$3" breach.prg
    same_beside breach.prg vice "$1" '' 0 || failed=$((failed + 1))
    if ! same_beside breach.prg watched "$1" '' 0 >said && grep -qF "stopped: $4" said; then return; fi
    failed=$((failed + 1))
    echo "in $2 $3: $(<said) instead of a stop: $4"
}

program "$root/examples/cave.bas" '1\r6\r2\r3\r1\r4\r5\r6\r1\r2\r'
program "$root/examples/collatz.bas" '27\r7\r'
program "$root/examples/dice.bas" '17\r'
program "$root/examples/guess.bas" '50\r25\r12\r6\r3\r75\r88\r94\r'
program "$root/examples/hamurabi.bas" '30\r0\r0\r2000\r500\r0\r0\r1800\r400\r10\r0\r1500\r300\r'
program "$root/examples/hello.bas" ''
program "$root/examples/lander.bas" '0\r0\r5\r10\r20\r30\r30\r20\r10\r10\r10\r10\r'
program "$root/examples/primes.bas" ''
program "$root/examples/times.bas" ''
for source in "$root"/tools/measure/bench/*.bas; do program "$source" ''; done
# Programs that fit only by what they take: a game, with what its transcripts type, and one that calls from each line, up
# to the last byte of a program's memory.
for transcript in "$root"/examples/startrek.transcript "$root"/examples/startrek.1.transcript; do
    program "$root/examples/startrek.bas" "$(sed -n 's/^> \(.*\)/\1\\r/p' "$transcript" | tr -d '\n')" --fit
done
{
    printf '1 PRINT "AAAAA"\n'
    seq -f '%g GOSUB 32000' 10 10 5170
    printf '32000 RETURN\n'
} >full.bas
program "$work/full.bas" '' --fit
if [ "$(wc -c <"$(basename "$work")_full.prg")" != $((2 + 0xa000 - 0x0801)) ]; then
    failed=$((failed + 1))
    echo 'full.bas does not end at $9FFF'
fi
spoilt examples_hello '' 0
spoilt examples_collatz '27\r7\r' 6
if [ "${#machines[@]}" -gt 1 ]; then
    while IFS='|' read -r where instructions words; do
        case $where in
            '#'*) ;;
            *) breach examples_hello "${where% }" "${instructions# }" "${words# }" ;;
        esac
    done <"$foreign/breaches.txt"
fi

echo "$rows runs on ${machines[*]}, $failed other than they should be"
python3 "$foreign/random_programs.py" "$trials" "${1:-20000}" || failed=$((failed + 1))
[ "$failed" = 0 ]
