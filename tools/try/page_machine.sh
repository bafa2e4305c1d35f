#!/usr/bin/env bash
# The JavaScript machine of a page (web/machine.js) beside the proved one, under Node: after each run the registers, the
# memory, the bytes sent, the cycles and the end are the same.
#
#   every documented opcode, with operand bytes, registers and memory at the edges (foreign/opcode_programs.py), and
#   each byte as an opcode at the edges of open memory;
#   a loop that calls each service, beside hostile ROMs, up to each of its first events;
#   every example and every program of tools/measure/bench, with keys, beside a quiet ROM and three hostile ones;
#   random PRGs of 64 bytes in filled memory (foreign/random_programs.py), every second one beside a hostile ROM.
#
# Each list has a negative case first: the least that is wrong in one of these parts is found.
#
#   tools/try/page_machine.sh [COUNT]    how many random PRGs; 20,000 by default
. "$(dirname "${BASH_SOURCE[0]}")/../setup.sh"
needs_program
needs python3
installs node nodejs
page=$root/tools/try/page
most_lines=700

lines=$(wc -l <"$root/web/machine.js")
[ "$lines" -le "$most_lines" ] || { echo "web/machine.js has $lines lines, more than $most_lines" >&2; exit 1; }

compare() { # NAME LIST: in as many parts as there are processors
    split -n "r/$(nproc)" "$2" "$2.part."
    printf '%s\0' "$2".part.* | xargs -0 -P "$(nproc)" -I PART node "$page/machine_trial.mjs" "$tbc" "$1" PART
}

program() { # SOURCE WORD..: its runs; the words are options of `tbc build`, and lines that are typed
    local name keys='' options=() word
    name=$(basename "$(dirname "$1")")_$(basename "$1" .bas).prg
    for word in "${@:2}"; do
        case $word in
            --*) options+=("$word") ;;
            *) keys+=$(printf '%s\r' "$word" | od -An -v -tx1 | tr -d ' \n') ;;
        esac
    done
    "$tbc" build "$1" "$name" "${options[@]}"
    printf "$work/$name keys=$keys limit=100000000%s\n" '' ' rude=1' ' rude=2' ' rude=3'
}

programs() {
    local path words keys
    while read -r path words; do
        # shellcheck disable=SC2086 # each is a word
        program "$root/$path" $words
    done < <(grep -v '^#' "$page/games.txt")
    while read -r path; do
        keys=${path%.bas}.keys
        # shellcheck disable=SC2046 # each line is a word
        program "$path" --fit $(cat "$keys" 2>/dev/null)
    done < <(find "$root/tools/measure/bench" -name '*.bas' | sort)
}

# SED; CHRIN, CHROUT, GETIN, CHROUT, PHP, PLA and CHROUT again and again; or GETIN and CHROUT, which returns.
services() {
    local rom limit loop=00c0f820cfff20d2ff20e4ff20d2ff086820d2ff4c01c0
    for rom in '' ' rude=0' ' rude=1' ' rude=2'; do
        for limit in {1..150}; do
            echo "@ code=$loop keys=8001ff00414d7f answers=0003ff80 limit=$limit$rom"
        done
        for limit in {1..9}; do echo "@ code=00c020e4ff4cd2ff answers=43 limit=$limit$rom"; done
    done
}

"$tbc" asm "$root/tools/try/foreign/opcodes.asm" opcodes.prg --at 080D
mkdir opcodes
python3 "$page/opcode_runs.py" opcodes.prg "$work/opcodes" >opcodes.txt
programs >programs.txt
python3 "$page/random_runs.py" "${1:-20000}" >random.txt
compare 'opcodes at their edges' opcodes.txt
services >services.txt
compare 'calls of services' services.txt
compare 'examples and the bench' programs.txt
compare 'random PRGs' random.txt
