#!/usr/bin/env bash
# Counts what the crates' tables have, a line `NUMBER WHAT` for each, and compares the rows of docs/RELIABILITY.md that
# are marked "count". It reads the repository alone and runs nothing; the other numbers of that page are what the
# scripts of tools/ print last. Says which row should have which number, and then ends with status 1.
set -euo pipefail
cd "$(dirname "${BASH_SOURCE[0]}")/../.."
bad=0

expects() { # ROW: a piece of a row of the page
    grep -qF -- "| $1 |" docs/RELIABILITY.md || { echo "count: a row of docs/RELIABILITY.md should have \"| $1 |\"" >&2; bad=1; }
}

grouped() { sed ':next; s/\B[0-9]\{3\}\b/,&/; t next' <<<"$1"; } # NUMBER: with a comma before each three digits

in_file() { sed -n "s/^ *$2/\1/p" "trials/$1"; } # FILE PATTERN: what the pattern's group is in its one line of that file
fewer() { # FILE PATTERN: the same of what a trial run has in place of that line
    sed -n "/^file: ${1//\//\\/}$/,/^$/s/^new: $2/\1/p" trials/fewer.txt
}

programs() { # FILE OF WHAT: how many programs a file generates; OF is as ` of each kind`
    local pattern='const PROGRAMS: u[a-z0-9]* = \([0-9]*\);' all few
    all=$(in_file "$1" "$pattern")
    few=$(fewer "$1" "$pattern")
    echo "$all ($few in a trial run) generated programs$3"
    expects "$few$2 in the trial, $all in the campaign (count)"
}

rows=$(cat trials/tb_golden/data/{machine,source,text,compiler}/*.txt | grep -vc '^#\|^ *$')
echo "$rows worked rows in text"
expects "$(grouped "$rows") (count), and in the trial all but 17 that are slow"
checks=$(grep -hc '^check' trials/tb_golden/data/check/*.txt | awk '{ n += $1 } END { print n }')
echo "$checks worked checks of sources"
expects "$checks (count)"
tests=$(cat trials/*/src/*.rs trials/*/src/*/*.rs | grep -c '^#\[test\]$')
echo "$tests tests in code"
expects "Tests in code, most of them over tables | $tests (count)"

programs tb_tests/src/generated/trials.rs ' of each kind' ' of each of two kinds'
pieces=$(grep -c '^const [A-Z]*: Piece = Piece {' trials/tb_tests/src/generated/pieces.rs)
programs tb_tests/src/generated/pieces.rs ' of each' " of each of $pieces pieces of fast code"
programs tb_tests/src/generated/jumping.rs '' ' with computed jumps'
programs tb_tests/src/generated/played.rs '' ' that are played'
edges=$(grep -c '^    (' trials/tb_tests/src/edges.rs)
echo "$edges worked rows at the edges of the words of these pieces"
expects "Worked rows at the edges of the words of these pieces | $edges (count)"

short=$(in_file tb_tests/src/rows.rs 'static ROWS: .*; \([0-9]*\)\] = \[')
long=$(in_file tb_tests/src/rows.rs '.*fn rows(&self) -> \[.*; \([0-9]*\)\].*')
seeds=$(in_file tb_tests/src/running.rs 'for seed in 0\.\.\([0-9]*\) {')
few=$(fewer tb_tests/src/running.rs 'for seed in 0\.\.\([0-9]*\) {')
hostile=$((short + long)) # programs
echo "$((hostile * (seeds + 2))) runs beside hostile ROMs: $hostile programs, $seeds seeds of the rude ROM ($few in a trial run) and two ROMs of the tests"
expects "with $few seeds in the trial, $(grouped $((hostile * (few + 2)))); with $seeds in the campaign, $(grouped $((hostile * (seeds + 2)))) (count)"

cut=$(grep -c '^prefixes ' trials/tb_golden/data/text/engines.txt)
echo "$cut inputs of the engines that compile nothing, cut off at each length"
expects "$cut input (count), 2 tests"
readers=$(awk '/=> [0-9]+ faults, and nothing written/ { faults += $(NF - 4) } END { print faults }' trials/tb_golden/stdout)
writers=$(awk '/ and a prefix of it [0-9]+ times$/ { faults += $(NF - 1) } END { print faults }' trials/tb_golden/stdout)
echo "$readers readers that fail, and $writers writers, of these engines"
expects "$readers (count)"
expects "$writers (count)"

edits=$(find crates -path "*/must-fail/*.edit" -o -path "*/wrong/*.edit" | wc -l)
alone=$(find crates -path "*/must-fail/*.edit" | wc -l)
crates=$(ls -d crates/*/must-fail crates/*/wrong | cut -d/ -f2 | sort -u | wc -l)
echo "$edits edits that must be refused, in $crates crates, $alone of them by the gate"
expects "$edits edits in $crates crates"
expects "Wrong bodies (\"edits\") that the prover must refuse, in $crates crates | $edits (count) | \`tools/wrong.py\`, and the gate $alone of them"
exit "$bad"
