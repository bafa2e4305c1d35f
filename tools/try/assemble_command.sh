#!/usr/bin/env bash
# Tries `tbc assemble` of the built program as a user does: files that are included, what may be written, what is shown,
# and the example programs, which are run. What each text becomes is a row of trials/tb_assembly_golden. Prints what
# differs, and then ends with status 1.
. "$(dirname "${BASH_SOURCE[0]}")/../setup.sh"
needs_program
needs cmp python3

rows=0
failed=0
from=/dev/null
row() { # STATUS SAID SHOWN WORD..: SAID and SHOWN are patterns of standard error and output, without the last line end
    local status=0 wanted=$1 said=$2 shown=$3
    shift 3
    rows=$((rows + 1))
    "$tbc" "$@" <"$from" >shown 2>said || status=$?
    [[ $status == "$wanted" && $(<said) == $said && $(<shown) == $shown ]] && return
    failed=$((failed + 1))
    printf 'tbc %s\n  status %s, wanted %s\n  said %q, wanted %q\n  shown %q, wanted %q\n' \
        "$*" "$status" "$wanted" "$(<said)" "$said" "$(<shown)" "$shown"
}

holds() { # FILE BYTES: a row: the file has these bytes, written as printf takes them
    rows=$((rows + 1))
    printf '%b' "$2" >wanted
    cmp -s "$1" wanted && return
    failed=$((failed + 1))
    printf '%s has other bytes: %q\n' "$1" "$(head -c 200 "$1")"
}

is_same() { # FILE FILE: a row
    rows=$((rows + 1))
    cmp -s "$1" "$2" && return
    failed=$((failed + 1))
    echo "$1 and $2 have other bytes"
}

is_absent() { # FILE: a row
    rows=$((rows + 1))
    [ ! -e "$1" ] && return
    failed=$((failed + 1))
    echo "$1 is there"
}

file() { printf '%b' "$2" >"$1"; } # NAME TEXT

file a.asm 'chrout = $ffd2\nstart lda #65\n jsr chrout\n rts\n'
file bad.asm ' lda #\n ldx nowhere\n'
file outer.asm ' .include "parts/inner.asm"\n jmp start\n'
mkdir parts
file parts/inner.asm ' .include "most.asm"\n'
file parts/most.asm 'start rts\n'
prg='\x00\xc0\xa9\x41\x20\xd2\xff\x60'

# where it is written
row 0 '' '' assemble a.asm
holds a.prg "$prg"
row 0 '' '' assemble a.asm b.prg
holds b.prg "$prg"
row 0 '' '' assemble a.asm -o c.prg
holds c.prg "$prg"
row 0 '' '' assemble a.asm d.prg --at 1000
holds d.prg '\x00\x10\xa9\x41\x20\xd2\xff\x60'
cp a.asm e
row 0 '' '' assemble e
holds e.prg "$prg"
from=a.asm
"$tbc" assemble - <a.asm >f.prg
holds f.prg "$prg"
"$tbc" assemble a.asm - >g.prg
holds g.prg "$prg"
from=/dev/null

# with labels and a listing, which assembles to the same bytes
row 0 '' '' assemble a.asm h.prg --labels h.lab --list h.lst
holds h.prg "$prg"
holds h.lab 'al C:c000 .start\n'
holds h.lst '; chrout = $ffd2\n; start lda #65\n  LDA #$41 ; C000  A9 41\n;  jsr chrout\n  JSR $FFD2 ; C002  20 D2 FF\n;  rts\n  RTS ; C005  60\n'
row 0 '' '' asm h.lst i.prg --at c000
holds i.prg "$prg"

# what it includes
row 0 '' '' assemble outer.asm
holds outer.prg '\x00\xc0\x60\x4c\x00\xc0'
file missing.asm ' .include "none.asm"\n'
row 1 '' $'missing.asm:1:2: error: the file can\'t be read\n    1 |  .include "none.asm"\n      |  ^' assemble missing.asm
is_absent missing.prg
file circle.asm ' .include "circle.asm"\n'
row 1 '' $'circle.asm:1:2: error: the file includes itself\n*' assemble circle.asm
file many.asm ''
for i in {1..257}; do echo " .include \"many.$i\"" >>many.asm; : >"many.$i"; done
row 1 'tbc: more than 256 files' '' assemble many.asm

# what is wrong
row 1 '' $'bad.asm:1:7: error: a value is missing\n    1 |  lda #\n      |       ^' assemble bad.asm bad.prg
is_absent bad.prg
row 3 'tbc: read fault' '' assemble none.asm
row 3 'tbc: write fault' '' assemble a.asm nowhere/out.prg
row 2 'tbc: bad address' '' assemble a.asm --at c00
row 2 'error:*' '' assemble
row 2 'error:*' '' assemble a.asm b.prg c.prg

# long branches
zeros=$(printf '\\x00%.0s' {1..130})
file far.asm ' bne far\n .fill 130\nfar rts\n'
row 1 '' $'far.asm:1:6: error: a branch reaches from -128 to 127 bytes\n    1 |  bne far\n      |      ^\nfar.asm:1:6: note: branch the other way, over a JMP, as --long does' assemble far.asm
is_absent far.prg
row 0 '' '' assemble far.asm --long --labels far.lab --list far.lst
holds far.prg '\x00\xc0\xf0\x03\x4c\x87\xc0'"$zeros"'\x60'
holds far.lab 'al C:c087 .far\n'
head -n 3 far.lst >far.head
holds far.head ';  bne far\n  BEQ $C005 ; C000  F0 03\n  JMP $C087 ; C002  4C 87 C0\n'
row 0 '' '' asm far.lst back.prg --at c000
is_same back.prg far.prg
row 0 '' '' assemble a.asm near.prg --long
holds near.prg "$prg"

# nothing that is read is written
row 2 'tbc: same file twice' '' assemble a.asm a.asm
row 2 'tbc: same file twice' '' assemble a.asm ./a.asm
ln a.asm link.prg
row 2 'tbc: same file twice' '' assemble a.asm link.prg
row 2 'tbc: same file twice' '' assemble a.asm out.prg --labels ./out.prg
row 2 'tbc: parts/most.asm is a source' '' assemble outer.asm parts/most.asm
row 2 'tbc: parts/inner.asm is not a listing: --force replaces it' '' assemble outer.asm out.prg --list parts/inner.asm
row 2 'tbc: same file twice' '' assemble outer.asm out.prg --list parts/inner.asm --force
holds parts/most.asm 'start rts\n'
file x.bas '10 END\n'
row 2 'tbc: x.bas is a source' '' assemble a.asm x.bas
for name in text.asm TEXT.S more.inc other.A65; do
    file "$name" 'nop\n'
    row 2 "tbc: $name is a source" '' assemble a.asm "$name"
    row 2 "tbc: ./$name is a source" '' assemble a.asm -o "./$name"
    holds "$name" 'nop\n'
done
row 0 '' '' assemble a.asm new.s
holds new.s "$prg"
row 2 'tbc: new.s is a source' '' assemble a.asm new.s
row 0 '' '' assemble a.asm h.prg --list h.s
row 0 '' '' assemble a.asm h.prg --list h.s
row 0 '' '' assemble a.asm h.prg --at 1000
row 0 '' '' assemble a.asm h.bin
row 2 'tbc: h.bin is not a PRG file of this address: --force replaces it' '' assemble a.asm h.bin --at 1000
holds h.bin "$prg"
row 0 '' '' assemble a.asm h.bin --at 1000 --force
is_absent out.prg

# what `tbc asm` reads means the same, but for an address below 256
mkdir agreeing
python3 "$root/tools/try/assemblers/agreeing_texts.py" agreeing >names
while read -r name at; do
    row 0 '' '' asm "agreeing/$name.asm" plain.prg --at "$at"
    row 0 '' '' assemble "agreeing/$name.s" other.prg --at "$at"
    is_same plain.prg other.prg
done <names

# the examples
for name in hexdump sieve guess; do
    row 0 '' '' assemble "$root/examples/asm/$name.asm" "$name.prg"
done
row 0 '' $'C000 A9 00 85 FB A9 C0 85 FC *' run --prg hexdump.prg
row 0 '' '2 3 5 7 11 13 17 19 23 29 31 37 41 43 47 53 59 61 67 71 73 79 83 89 97 101 103 107 109 113 127 131 137 139 149 151 157 163 167 173 179 181 191 193 197 199 211 223 227 229 233 239 241 251 ' run --prg sieve.prg
row 0 '' $'\nYOUR GUESS? \nMORE\nYOUR GUESS? \nLESS\nYOUR GUESS? \nRIGHT' run --prg guess.prg --type '7\n50\n42\n'

echo "$((rows - failed)) rows of assemble as wanted, $failed others"
[ "$failed" = 0 ]
