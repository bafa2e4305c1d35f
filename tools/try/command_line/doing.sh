# shellcheck shell=bash disable=SC2034,SC2154
# What is done: builds, runs, listings, disks.
# A part of tools/try/command_line.sh, which has the calls.

# What is done
row 0 '' '' build hello.bas out.prg
row 0 '' '' build hello.bas out.prg --seed 65535
row 0 '' HELLO run hello.bas
row 0 '' HELLO run hello.bas --rude 7
row 0 '' $'A\n? \n42\n\n!7 AT 30' run wait.bas --keys 32310D
row 0 '' $'\n!0 AT 10' run hello.bas --answers 03
row 0 '' H run --prg routine.prg
row 0 '' A run --prg poll.prg --answers 41
row 0 '' '' asm routine.s out.prg --at c000
same out.prg routine.prg
row 0 '' $'LDA #$48 ; C000\nJSR $FFD2 ; C002\nRTS ; C005' dis routine.prg
version=$("$root/tools/pack/version.sh")
row 0 '' "tbc $version" --version
row 0 '' 'Compiles Tiny BASIC*Usage: tbc *' --help
row 0 '' '*Usage: tbc run *SOURCE*--prg*' run --help
row 0 '' '*Usage: tbc run *SOURCE*--prg*' help run
row 0 '' 'Compiles Tiny BASIC*Usage: tbc *' help
row 0 '' "tbc $version" version
row 2 "error: unrecognized subcommand 'jump'*" '' help jump

# A word that is a command but for two neighbours that changed places has that one for a tip, any other one what is near
tips() { row 2 "error: unrecognized subcommand '$1'"$'\n\n'"  tip: $2"$'\n\n'"Usage: tbc <COMMAND>"$'\n\n'"For more information, try '--help'." '' "$1"; } # WORD TIP
tips rnu "a similar subcommand exists: 'run'"
tips dsi "a similar subcommand exists: 'dis'"
tips pla "some similar subcommands exist: 'page', 'play'"
tips assemlbe "a similar subcommand exists: 'assemble'"
tips tets "a similar subcommand exists: 'test'"
tips rn "a similar subcommand exists: 'renumber'"
tips diks "a similar subcommand exists: 'disk'"
tips disasm "some similar subcommands exist: 'disk', 'dis'"
row 2 $'error: unrecognized subcommand \'xyz\'\n\nUsage: *' '' xyz

# A text is typed as it is spelled: small letters as capitals, a backslash and an n as return
row 0 '' $'A\n? \n42\n\n!7 AT 30' run wait.bas --type '2 1\n'
row 0 '' $'A\n? \n42\n\n!7 AT 30' run wait.bas --type=$'21\n'
row 0 '' $'A\n? \n-10\n\n!7 AT 30' run wait.bas --type '-5\n'
row 6 'tbc: waits for a key' $'A\n\\? ' run wait.bas --type 21
row 6 'tbc: waits for a key' $'A\n\\? ' run wait.bas --type ''
row 6 'tbc: waits for a key' $'AZ@{5B}\nN{5C}NN0' run --prg echo.prg --type 'az@[\nn\Nn0\n\n'
row 0 '' $'{5C}' run --prg once.prg --type '\'
row 2 'error: *' '' run wait.bas --type 1 --keys 31
row 2 'error: *' '' run wait.bas --keys-file nowhere.keys --type 1
row 2 'error: *' '' play wait.bas --type 1

# At a terminal a first word that is a source in place of a command gets a hint
by=(python3 "$root/tools/try/at_a_terminal.py" --)
row 2 '' "*unrecognized subcommand 'hello.bas'*tbc: note: to run a source: tbc run hello.bas" hello.bas
row 2 '' "*unrecognized subcommand 'a/B.BAS'*tbc: note: to run a source: tbc run a/B.BAS" a/B.BAS --seed 2
row 2 '' "*unrecognized subcommand 'hello.prg'*try '--help'." hello.prg
row 2 '' "*try '--help'." run hello.bas --hello
by=()
row 2 "error: unrecognized subcommand 'hello.bas'*try '--help'." '' hello.bas

# What is built is the whole program: its last line is found in the table at the end. RND starts from the seed
built HELLO hello.bas out.prg
built FAR22 far.bas out.prg
built FAR95 far.bas out.prg --seed 2
row 0 '' FAR22 run far.bas
row 0 '' FAR95 run far.bas --seed 2

# A register that the ROM spoils is shown
row 0 '' .A run --prg spoilt.prg
row 0 '' '.{F0}' run --prg spoilt.prg --rude 1
row 0 '' '.{E6}' run --prg spoilt.prg --rude 3

# Disk images; tools/try/disk.sh looks at their bytes
cp routine.prg maze_1.prg
many=()
for ((i = 1; i <= 145; i++)); do
    cp routine.prg "many$i.prg"
    many+=("many$i.prg")
done
out=out.d64
row 0 '' '' disk out.d64 routine.prg maze_1.prg
row 0 '' '' disk out.d64 "${many[@]:0:144}"
row 1 'tbc: disk full' '' disk out.d64 "${many[@]}"
{ printf '\x01\x08' && head -c 63487 /dev/zero; } >large1.prg
for i in 2 3; do cp large1.prg large$i.prg; done
row 0 '' '' disk out.d64 large1.prg large2.prg
row 1 'tbc: disk full' '' disk out.d64 large1.prg large2.prg large3.prg
row 1 'tbc: bad name' '' disk out.d64 routine.prg bad+name.prg
row 1 'tbc: name twice' '' disk out.d64 routine.prg ./ROUTINE
row 3 'tbc: read fault' '' disk out.d64 routine.prg nowhere.prg maze_1+.prg
row 3 'tbc: read fault' '' disk out.d64 routine.prg folder
row 1 'tbc: name twice' '' disk out.d64 "${many[@]}" ./many1.prg
each 1 bad.prg disk out.d64 routine.prg bad.prg bad+.prg <<'END'
not a PRG: too short|\x01
not a PRG: runs past the end|\xff\xff\x60\x60
not a PRG: text|10 PRINT "HELLO"\n20 END\n
not a PRG: text|LDA #$48\r\n\tRTS ; ~
not a PRG: not RAM|\x00\xd0\x60
not a PRG: not RAM|\xff\x9f\x60\x60
END
row 1 'tbc: not a PRG: text' '' disk out.d64 routine.prg hello.bas
file low.prg '\xff\x9f\x60'
row 0 '' '' disk out.d64 low.prg
row 2 'error: *' '' disk out.d64
row 2 'error: *' '' disk
row 2 'error: *' '' disk -o out.d64
row 0 '' '' disk -o out.d64 routine.prg maze_1.prg
row 0 '' '' disk routine.prg -o out.d64 maze_1.prg
out=out.D64
row 0 '' '' disk out.D64 routine.prg
out=out.prg
for name in out.prg out.d64.prg d64 out.bas; do row 1 'tbc: bad name' '' disk $name maze_1.prg; done
row 1 'tbc: bad name' '' disk out.prg nowhere.prg
