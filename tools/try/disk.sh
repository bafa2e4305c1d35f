#!/usr/bin/env bash
# Makes disk images with the built program and hands them to other tools: `cc1541`, which lists images and makes them, a
# small walker in this script, and `c1541` of VICE, where that can be had, which lists, reads and validates them. Each
# must find the same files, and each is shown one image that is wrong.
. "$(dirname "${BASH_SOURCE[0]}")/../setup.sh"
needs_program
needs python3
installs cc1541 cc1541
finds_vice || true

failed=0
rows=0
so() { # OTHERWISE WORD..: says OTHERWISE if WORD.. fails
    local otherwise=$1
    shift
    rows=$((rows + 1))
    "$@" && return
    failed=$((failed + 1))
    echo "$otherwise"
}
fails() { if "$@"; then return 1; fi; }

# A walker of its own: the directory from track 18, sector 0, and each file's chain of blocks. Writes each file to
# FOLDER, and its name. Ends with status 1 if a block is used twice or the map of free blocks is wrong.
cat >walk.py <<'END'
import os, sys
image, folder = open(sys.argv[1], "rb").read(), sys.argv[2]
sectors = [0] + [21] * 17 + [19] * 7 + [18] * 6 + [17] * 5
starts = [sum(sectors[:track]) for track in range(36)]
assert len(image) == 256 * 683
used = set()

def chain(track, sector):
    while track:
        assert track <= 35 and sector < sectors[track] and (track, sector) not in used
        used.add((track, sector))
        at = 256 * (starts[track] + sector)
        track, sector = image[at], image[at + 1]
        yield image[at + 2:at + 256] if track else image[at + 2:at + sector + 1], image[at:at + 256]

head = next(chain(18, 0))[1]
for _, block in chain(head[0], head[1]):
    for at in range(0, 256, 32):
        entry = block[at:at + 32]
        if entry[2]:
            blocks = [data for data, _ in chain(entry[3], entry[4])]
            name = entry[5:21].split(b"\xa0")[0].decode()
            assert entry[2] == 0x82 and len(blocks) == entry[30] + 256 * entry[31]
            open(os.path.join(folder, name), "wb").write(b"".join(blocks))
            print(name)
for track in range(1, 36):
    free = [(track, sector) not in used for sector in range(sectors[track])]
    bits = [bool(head[4 * track + 1 + sector // 8] >> sector % 8 & 1) for sector in range(24)]
    assert bits[:len(free)] == free and not any(bits[len(free):]) and head[4 * track] == sum(free)
END
found() { # IMAGE: the walker finds these files in an image, and nothing else
    rm -rf found
    mkdir found
    python3 walk.py "$1" found >names 2>/dev/null && diff -r wanted found >/dev/null && cmp -s names order
}
listed() { # IMAGE: cc1541 lists them
    cc1541 "$1" | sed -n 's/^[0-9]* *"\(.*\)" *prg *$/\1/p' | tr a-z A-Z >listing
    cmp -s listing order
}
read_back() { # IMAGE: c1541 lists and reads them, and finds nothing to repair
    local name is=yes
    c1541 "$1" -list 2>/dev/null | sed -n 's/^[0-9]* *"\(.*\)" *prg *$/\1/p' | tr a-z A-Z >listing
    cmp -s listing order || is=no
    while read -r name; do
        c1541 "$1" -read "$(tr A-Z a-z <<<"$name")" read >/dev/null 2>&1 && cmp -s read "wanted/$name" || is=no
    done <order
    cp "$1" repaired
    c1541 repaired -validate >/dev/null 2>&1 && cmp -s "$1" repaired || is=no
    [ $is = yes ]
}

# Two disks: the examples, and one that is full to the last block, with a file of each number of bytes round a block's end.
make() { # NAME FILE..: an image, and what must be found in it
    local name=$1 file sign
    shift
    rm -rf wanted
    mkdir wanted
    : >order
    for file; do
        sign=$(basename "$file" .prg | tr 'a-z_' 'A-Z-')
        cp "$file" "wanted/$sign"
        echo "$sign" >>order
    done
    "$tbc" disk "$name.d64" "$@"
}
judge() { # NAME: each tool finds what it must
    so "the walker finds other files in $1.d64" found "$1.d64"
    so "cc1541 lists other files in $1.d64" listed "$1.d64"
    if command -v c1541 >/dev/null; then so "c1541 reads other files from $1.d64" read_back "$1.d64"; fi
}
mkdir programs
for source in "$root"/examples/*.bas; do
    "$tbc" build --fit "$source" "programs/$(basename "$source" .bas).prg"
done
so 'tbc disk fails' make examples programs/*.prg
judge examples
sized() { printf '\001\010' && head -c "$1" /dev/zero | tr '\0' X; } # BYTES
mkdir sizes # these take 1, 1, 1, 1, 2, 2, 3, 250, 200 and 203 blocks: 664
for size in 0 1 251 252 253 506 507 63487 $((254 * 200 - 2)) $((254 * 203 - 2)); do sized $size >"sizes/size_$size.prg"; done
so 'tbc disk fails' make full sizes/*.prg
judge full
so 'the disk is not full' [ "$(cc1541 full.d64 | awk '/blocks free/ { print $1 }')" = 0 ]

# Compared with an image that cc1541 makes of the same files in the same places
words=()
for name in A B-1; do
    sized 3000 >"$name.prg"
    words+=(-f "$(tr A-Z a-z <<<"$name")" -w "$name.prg")
done
cc1541 -n test -i 'tb#a02a' -S 1 "${words[@]}" theirs.d64 >/dev/null
so 'tbc disk fails' make test A.prg B-1.prg
so "the image is not that of cc1541" cmp -s test.d64 theirs.d64

# One wrong image for each: a byte of a file, a name in the directory, and a block that is marked free
wrong() { # NAME PLACE BYTE: the disk with another byte
    cp examples.d64 "$1.d64"
    printf "$3" | dd of="$1.d64" bs=1 seek="$2" conv=notrunc status=none
}
so 'tbc disk fails' make examples programs/*.prg
wrong byte 300 '\x58'
wrong name $((256 * 358 + 5)) 'X'
wrong free $((256 * 357 + 5)) '\xff'
so 'the walker does not see a wrong byte' fails found byte.d64
so 'the walker does not see a wrong map' fails found free.d64
so 'cc1541 does not see a wrong name' fails listed name.d64
so 'the comparison does not see a wrong byte' fails cmp -s byte.d64 examples.d64
if command -v c1541 >/dev/null; then
    so 'c1541 does not see a wrong byte' fails read_back byte.d64
    so 'c1541 does not see a wrong map' fails read_back free.d64
else
    echo "c1541 is not there: its part is left out"
fi

echo "$rows findings on disk images, $failed other than they should be"
[ "$failed" = 0 ]
