#!/usr/bin/env bash
# Measures compiled programs: those of tools/measure/bench, each in BASIC, in C by `cl65 -t sim6502 -Oirs`, and most of
# them by hand. A program by hand is a floor: it keeps the same rules, a poll a line, and the variables and the number
# of returns in memory at each line's beginning.
#
#   tools/measure/generated.sh [NAME ..]    a name is as primes, second/niven or held/quiz; without names all programs
#                                           and all spellings; cc65 and 64tass are installed if they are not there
#   tools/measure/generated.sh --check      ends with status 1 if README.md and docs/PERFORMANCE.md have other figures,
#                                           also of the bytes of the examples' PRG files
#
# The first half of the programs lies in bench/ itself, the second half in second/ and held/. Those in held/ are held
# back: they are only ever measured. Nobody looks into them, or into their compiled code, to make code faster.
#
# For each it prints the bytes of the PRG file, the events that it takes on the test machine until it returns (quiet
# ROM), and the cycles that sim65 counts for it, for the C program and for the floor; at the end the geometric means. In
# sim65 CHROUT is an RTS and GETIN says that no key is down; in C a sent byte is a store. What NAME.keys has is typed:
# in all three forms the keys lie in memory. All must print the same.
#
# bench/spellings.txt has pairs of lines that mean the same. For each pair it prints the cycles of both, by `tbc
# profile`, as the mean over A from 1 to 250, where B is 60.
. "$(dirname "${BASH_SOURCE[0]}")/../setup.sh"
needs_program
installs cl65 cc65
installs 64tass 64tass
. "$root/tools/sim65.sh"
set -o pipefail
is_check=
if [ "${1-}" = --check ]; then
    is_check=1
    shift
fi
cp -r "$root"/tools/measure/bench/. .

typed() { [ ! -f "$1.keys" ] || sed 's/$/\\r/' "$1.keys" | tr -d '\n'; } # NAME: what is typed, with \r for a return
in_hex() { printf "$1" | od -An -v -tx1 | tr -d ' \n'; }                 # KEYS
runs() { "$tbc" run --prg "$1" --keys "$2" "${@:3}"; }                   # PRG HEX OPTION..
cycles() { counts "$1" | cut -d ' ' -f 1; }                              # IMAGE

events() { # PRG HEX: the lowest limit with which it returns
    local low=0 high=1000000 middle
    until runs "$@" --limit "$high" >/dev/null 2>&1; do
        low=$high
        high=$((high * 10))
    done
    while ((high - low > 1)); do
        middle=$(((low + high) / 2))
        if runs "$@" --limit "$middle" >/dev/null 2>&1; then high=$middle; else low=$middle; fi
    done
    echo "$high"
}

in_c() { # NAME KEYS TO OPTION..
    cl65 -t sim6502 -Oirs "-DKEYS=\"$2\"" "${@:4}" -o "$3" "$1.c"
}

prints() { # NAME HOW COMMAND..: ends the script if the command prints something other than the compiled program
    "${@:3}" | cmp ours - >&2 || { echo "$1 prints something else $2" >&2; exit 1; }
}

by_hand() { # NAME KEYS HEX: the cycles of the floor, - if there is none
    local source
    source=$(dirname "$1")/floors/$(basename "$1").asm
    [ -f "$source" ] || { echo - && return; }
    64tass -q -I floors -o floor.prg "$source"
    prints "$1" 'by hand' runs floor.prg "$3"
    image floor.prg "$2" >floor.sim
    cycles floor.sim
}

measured() { # NAME: it, its bytes, events and cycles, the cycles of C and of the floor
    local keys hex floor
    keys=$(typed "$1")
    hex=$(in_hex "$keys")
    "$tbc" build "$1.bas" ours.prg
    image ours.prg "$keys" >ours.sim
    runs ours.prg "$hex" >ours
    in_c "$1" "$keys" shown.c65 -DSHOW
    prints "$1" 'in C' sim65 shown.c65
    in_c "$1" "$keys" counted.c65
    floor=$(by_hand "$1" "$keys" "$hex")
    echo "$1 $(wc -c <ours.prg) $(events ours.prg "$hex") $(cycles ours.sim) $(cycles counted.c65) $floor"
}

said_of() { # DIGITS: figures as they are said: a row for each program, and the means of each half and of all
    awk -v form="%.$1f" '
        function add(half) {
            programs[half]++
            cc65[half] += log($4 / $5)
            if ($6 != "-") { floors[half]++; floor[half] += log($4 / $6) }
        }
        function says_means(half) {
            if (!programs[half]) return
            printf "geometric means of %s: " form " of cc65, ", half, exp(cc65[half] / programs[half])
            print (floors[half] ? sprintf(form, exp(floor[half] / floors[half])) : "-") " of the floor"
        }
        {
            printf "%s: %d bytes, %d events, %d cycles, cc65 %d, floor %s, ", $1, $2, $3, $4, $5, $6
            printf "ratios %.2f and %s\n", $4 / $5, $6 == "-" ? "-" : sprintf("%.2f", $4 / $6)
            add($1 ~ /\// ? "the second half" : "the first half")
            add("all")
        }
        END { says_means("the first half"); says_means("the second half"); says_means("all") }'
}

range() { # from where to where the shares of cc65's cycles are in all programs but one, and the largest one
    awk '{ printf "%.2f\n", $4 / $5 }' figures | sort -n | awk '
        { share[NR] = $1 }
        END {
            if (NR < 2) exit
            printf "%s to %s of cc65 in %d of %d programs, ", share[1], share[NR - 1], NR - 1, NR
            printf "%s in one\n", share[NR]
        }'
}

spelled() { # LINE: what it takes beside a REM, and what its program prints
    printf '%s\n' '5 A=1' '10 B=60' '20 REM' "30 $1" '40 S=S+R' '50 A=A+1' '60 IF A<=250 GOTO 20' '70 PRINT S' '80 END' \
        >spelled.bas
    "$tbc" profile spelled.bas | awk '$1 == 20 { rem = $4 } $1 == 30 { printf "%.0f ", ($4 - rem) / $2 }'
    "$tbc" run spelled.bas
}

pairs() { # the pairs of spellings, each line with its cycles
    local dear cheap more less sum same
    grep -v '^#' spellings.txt | sed 's/ | /|/' | while IFS='|' read -r dear cheap; do
        read -r more sum < <(spelled "$dear")
        read -r less same < <(spelled "$cheap")
        [ -n "$sum" ] && [ "$sum" = "$same" ] || { echo "$dear gives $sum, and $cheap $same" >&2; exit 1; }
        echo "$dear|$more|$cheap|$less"
    done
}

programs=("$@")
[ $# -gt 0 ] || programs=(*.bas second/*.bas held/*.bas)
for name in "${programs[@]}"; do measured "${name%.bas}"; done | tee figures | said_of 3
range | tee span
[ $# -gt 0 ] || pairs | tee spellings | awk -F '|' '{ printf "%s: %d cycles, %s: %d, ratio %.2f\n", $1, $2, $3, $4, $2 / $4 }'

# What the documents have to say.

grouped() { sed ':next; s/\B[0-9]\{3\}\b/,&/; t next'; } # each number of a text, with a comma before each three digits

program_rows() {
    awk '{
        printf "| %d bytes | %d | %d | %d | %s | %.2f | ", $2, $3, $4, $5, $6, $4 / $5
        print ($6 == "-" ? "-" : sprintf("%.2f", $4 / $6)) " |"
    }' figures | grouped
}

mean_rows() { said_of 2 <figures | sed -n 's/^\(geometric .*\): \(.*\), \(.*\)/The \1 are \2 and \3/p'; }

range_rows() { # as README, the first lines and the first table of PERFORMANCE have it
    awk '{
        printf "| %s to %s of the cycles | of cc65'\''s code, in %d of %d programs |\n", $1, $3, $7, $9
        printf "In %d of %d programs its code takes %s to %s of the cycles of cc65'\''s code.\n", $7, $9, $1, $3
        printf "| %s to %s of cc65'\''s cycles in %d programs, %s in one |\n", $1, $3, $7, $11
    }' span
}

spelling_rows() { awk -F '|' '{ printf "| `%s` | %d | `%s` | %d | %.2f |\n", $1, $2, $3, $4, $2 / $4 }' spellings; }

example_rows() { # the examples, each with the bytes of its PRG file
    local source
    for source in "$root"/examples/*.bas; do
        "$tbc" build "$source" example.prg 2>/dev/null || continue
        echo "$(basename "$source" .bas) $(wc -c <example.prg)" | grouped
    done
}

if [ -n "$is_check" ]; then
    cat "$root/README.md" "$root/docs/PERFORMANCE.md" | tr '\n' ' ' >documents
    { program_rows && mean_rows && range_rows && spelling_rows && example_rows; } | while read -r row; do
        grep -qF -- "$row" documents || { echo "README.md and docs/PERFORMANCE.md do not say: $row" >&2; exit 1; }
    done
fi
