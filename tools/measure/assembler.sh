#!/usr/bin/env bash
# Times `tbc asm` on a text of 5,000 instructions and `tbc dis` on 8,000 bytes, and ca65 and da65 of Debian's cc65,
# each from the start of its process to its end. Prints the median of the rounds in milliseconds, and the ratios.
# Usage: tools/measure/assembler.sh [ROUNDS]
. "$(dirname "${BASH_SOURCE[0]}")/../setup.sh"
needs_program
needs ca65 da65
rounds=${1:-101}

# Ten instructions for each label, in the syntax that both assemblers read.
for ((i = 1; i <= 500; i++)); do
    printf 'LINE%d:\nLDA #$%02X\nSTA $C010\nLDX $12\nINC $C011\nLDA ($FB),Y\nCLC\nADC $C020,X\nBNE LINE%d\nJSR LINE%d\nRTS\n' \
        "$i" "$((i % 256))" "$i" "$((501 - i))"
done >text.s
"$tbc" asm text.s text.prg --at 1000
head -c 8002 text.prg >listed.prg
tail -c +3 listed.prg >listed.bin

for ((i = 0; i < rounds; i++)); do
    timed asm "$tbc" asm text.s out.prg --at 1000
    timed ca65 ca65 text.s -o out.o
    timed dis "$tbc" dis listed.prg
    timed da65 da65 --start-addr 4096 listed.bin -o out.txt
done

show() { # OURS THEIRS WHAT
    awk -v a="$(median "$1")" -v b="$(median "$2")" -v what="$3" -v ours="tbc $1" -v theirs="$2" \
        'BEGIN { printf "%s: %s %.2f ms, %s %.2f ms, ratio %.2f\n", what, ours, a / 1000, theirs, b / 1000, a / b }'
}
show asm ca65 "5,000 instructions"
show dis da65 "8,000 bytes"
