#!/usr/bin/env bash
# Compares with other assemblers, those of Debian: 64tass, ca65 with ld65, ACME and xa.
#
#   Listings with --for: of each example, by `build --list` and by `dis`, of a program that cc65 compiles, and of 41
#     files of random bytes, one of them of more than 26,624 bytes. The assembler that a listing is for, as its head
#     says, makes the same PRG file of it, and says nothing. ACME may warn of a pointer at $ff.
#   150 texts in what 64tass, ca65 and ACME have in common (assemblers/common_texts.py), in the spelling of each: `tbc
#     assemble` makes the file of it that the assembler makes.
#   Their own idioms (assemblers/idioms.txt): the assembler takes each, and `tbc assemble` takes or refuses it, as
#     docs/ASSEMBLY.md says.
#
# Each comparison has a negative case: a wrong byte must be found.
. "$(dirname "${BASH_SOURCE[0]}")/../setup.sh"
needs_program
needs python3
installs 64tass 64tass
installs ca65 cc65
installs acme acme
installs xa xa65
others=$root/tools/try/assemblers

rows=0
failed=0
: >said
so() { # OTHERWISE WORD..: a row: says OTHERWISE if WORD.. fails
    local otherwise=$1
    shift
    rows=$((rows + 1))
    "$@" && return
    failed=$((failed + 1))
    echo "$otherwise"
}
fails() { if "$@"; then return 1; fi; }

made() { # ASSEMBLER IN OUT: the assembler makes OUT of IN, and says nothing
    rm -f "$3"
    case $1 in
        64tass) 64tass -q -o "$3" "$2" ;;
        ca65) ca65 -o in.o "$2" && linked "$2" "$3" ;;
        acme) acme -f cbm -o "$3" "$2" ;;
        xa) xa -o "$3" "$2" ;;
    esac >told 2>&1 && { grep -v 'Zeropage pointer wraps around' told >said || true; } && [ ! -s said ] && [ -e "$3" ]
}
linked() { # IN OUT: as the head of a listing says, with the configuration there
    if [[ $(head -n 1 "$1") == *'ld65 -C CONFIG'* ]]; then
        sed -n 's/^; CONFIG: //p' "$1" >large.cfg && ld65 -C large.cfg -o "$2" in.o
    else
        ld65 -t none -o "$2" in.o
    fi
}
gives_back() { made "$1" "$2" back.prg && cmp -s back.prg "$3"; } # ASSEMBLER LISTING PRG
spoilt() { # PRG: the file with its last byte changed
    python3 -c 'import sys; it = sys.stdin.buffer.read(); sys.stdout.buffer.write(it[:-1] + bytes([it[-1] ^ 1]))' <"$1" >spoilt.prg
}

listed() { # PRG: what `dis --for` lists
    local it
    for it in 64tass ca65 acme xa; do
        "$tbc" dis "$1" --for $it >listing.s
        so "$it makes another file of the listing of $1: $(head -n 2 said)" gives_back $it listing.s "$1"
    done
}
for source in "$root"/examples/*.bas; do
    prg=$(basename "$source" .bas).prg
    for it in 64tass ca65 acme xa; do
        "$tbc" build --fit "$source" "$prg" --list listing.s --for $it
        so "$it makes another file of the listing of $source: $(head -n 2 said)" gives_back $it listing.s "$prg"
        spoilt "$prg"
        so "a wrong byte of $prg is not found" fails gives_back $it listing.s spoilt.prg
    done
    listed "$prg"
done

printf '#include <stdio.h>\nint main(void) { printf("hello\\n"); return 0; }\n' >hello.c
cl65 -t c64 -O -o hello.prg hello.c
listed hello.prg

python3 - <<'END'
import random

chance = random.Random(6510)
places = [0, 2, 0x10, 0xF0, 0x100, 0x0801, 0xA000, 0xC000, 0xFE80, 0xFF80]
for number in range(41):
    at = places[number] if number < len(places) else chance.randrange(0x10000)
    size = min(chance.randint(1, 600), 0x10000 - at)
    if number == 40:
        at, size = 0x0801, 30000
    with open(f"random{number}.prg", "wb") as file:
        file.write(at.to_bytes(2, "little") + bytes(chance.randrange(256) for _ in range(size)))
END
for number in {0..40}; do listed random$number.prg; done

mkdir texts
python3 "$others/common_texts.py" texts >names
wanted() { # ASSEMBLER TEXT: wanted.prg is what the assembler makes of it; ca65 writes no load address
    made "$1" "$2" raw.prg || return
    if [ "$1" = ca65 ]; then printf '\000\300' | cat - raw.prg >wanted.prg; else mv raw.prg wanted.prg; fi
}
assembles() { "$tbc" assemble "$1" --force -o got.prg >told 2>&1 && [ ! -s told ] && cmp -s got.prg "$2"; } # TEXT PRG
while read -r name; do
    for it in 64tass ca65 acme; do
        text=texts/$name.$it.s
        so "$it does not take $text: $(head -n 2 said)" wanted $it "$text"
        so "$text: tbc assemble makes another file of it than $it: $(head -n 3 told)" assembles "$text" wanted.prg
    done
    spoilt wanted.prg
    so "a wrong byte of $name is not found" fails assembles "$text" spoilt.prg
done <names

# An idiom is three columns: `read` or `not read`, the assembler, and its lines with ` / ` between them.
takes() { "$tbc" assemble "$1" --force -o got.prg >told 2>&1; } # TEXT
while IFS='|' read -r whether it lines; do
    { if [ "$it" = ca65 ]; then echo '.org $c000'; else echo '* = $c000'; fi && sed 's, / ,\n,g' <<<"$lines"; } >idiom.s
    so "$it does not take its idiom: $lines: $(head -n 2 said)" wanted "$it" idiom.s
    case $whether in
        read) so "tbc assemble makes another file of: $lines: $(head -n 2 told)" assembles idiom.s wanted.prg ;;
        *) so "tbc assemble reads: $lines" fails takes idiom.s ;;
    esac
done < <(grep -v '^#' "$others/idioms.txt")

echo "$rows findings beside other assemblers, $failed other than they should be"
[ "$failed" = 0 ]
