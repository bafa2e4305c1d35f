# shellcheck shell=bash disable=SC2034,SC2154
# Refused texts and PRG files, the words of a call, and files that are not there.
# A part of tools/try/command_line.sh, which has the calls.

# Refused texts and PRG files
each 1 bad.s asm bad.s out.prg --at 1000 <<'END'
text line 3|RTS\n\nLDA 5
item 1: no such mode|RTS\nSTA #$05
item 0: unknown label|JMP M
item 2: label twice|L:\nRTS\nL:
item 0: branch out of range|BNE $1082
item 0: indirect at page end|JMP ($12FF)
END
row 1 'tbc: item 1: runs past the end' '' asm routine.s out.prg --at fffd
each 1 bad.prg run --prg bad.prg <<'END'
not a PRG: too short|\x01
not a PRG: runs past the end|\xff\xff\x60\x60
not a PRG: not RAM|\x00\xd0\x60
END
each 1 bad.prg dis bad.prg <<'END'
not a PRG: too short|\x01
not a PRG: runs past the end|\xff\xff\x60\x60
END

# The words. Key lists and addresses are judged before any file is opened
row 2 'tbc: bad key list' '' run nowhere.bas --keys 0
row 2 'tbc: bad key list' '' run nowhere.bas --answers 0g
row 2 'tbc: bad address' '' asm nowhere.s out.prg --at c00
row 2 'tbc: bad address' '' asm nowhere.s out.prg --at c0000
row 2 'tbc: bad address' '' asm nowhere.s out.prg --at wxyz
row 2 'tbc: an argument is not UTF-8' '' run $'\xff'
row 2 'error: *' ''
row 2 'error: *' '' jump
row 2 'error: *' '' build
row 2 'error: *' '' build hello.bas out.prg wait.bas
row 2 'error: *' '' build hello.bas out.prg -o out.prg
row 2 'error: *' '' asm routine.s out.prg -o out.prg --at c000
row 2 'error: *' '' build hello.bas out.prg --seed 65536
row 2 'error: *' '' run
row 2 'error: *' '' run hello.bas --prg routine.prg
row 2 'error: *' '' run hello.bas --limit 0
row 2 'error: *' '' run hello.bas --limit 1000000001
row 2 'error: *' '' run hello.bas --rude -1
row 2 'error: *' '' asm routine.s out.prg
row 2 'error: *' '' dis
row 2 'error: *' '' step

# Files
head -c 1048576 /dev/zero | tr '\0' ' ' >most.bas
{ cat most.bas && printf ' '; } >more.bas
row 1 'tbc: empty program' '' build most.bas out.prg
for name in more.bas nowhere.bas folder; do
    row 3 'tbc: read fault' '' build $name out.prg
    row 3 'tbc: read fault' '' run $name
    row 3 'tbc: read fault' '' run --prg $name
    row 3 'tbc: read fault' '' asm $name out.prg --at c000
    row 3 'tbc: read fault' '' dis $name
done
for name in /dev/full nowhere/out.prg folder; do
    row 3 'tbc: write fault' '' build hello.bas $name
    row 3 'tbc: write fault' '' asm routine.s $name --at c000
done
mkdir folder.d64
ln -s /dev/full full.d64
for name in full.d64 nowhere/out.d64 folder.d64; do row 3 'tbc: write fault' '' disk $name routine.prg; done
to=/dev/full
row 3 'tbc: write fault' '' run hello.bas
row 3 'tbc: write fault' '' run --prg routine.prg
row 3 'tbc: write fault' '' dis routine.prg
row 3 'tbc: write fault' '' --help
row 3 'tbc: write fault' '' --version
to=shown
