#!/usr/bin/env bash
# Runs the gate and prints the seconds of processor time that each crate's proof, tests and edits take in it, the dearest
# first, and how quiet the machine was: what share of the time in which processors were needed the host gave to other
# machines, and, before and after the gate, how many additions a processor does at once (`additions.c`). It runs a copy
# of rt that puts `time` before each of the prover's commands. `taskset -c 0,1` before it shows the gate on two
# processors.
. "$(dirname "${BASH_SOURCE[0]}")/../setup.sh"
needs rt awk cc nproc python3 /usr/bin/time
kit=$(dirname "$(readlink -f "$(command -v rt)")")

# Its commands all start after the words that `guarded` gives.
sed -e "s#^HERE = .*#HERE = '$kit'#" -e '/^rtlib = load()/a\
def timed(words=rtlib.guarded):\
    return ["/usr/bin/time", "-a", "-o", os.environ["TIMES"], "-f", "%U %S %C", *words()]\
\
rtlib.guarded = timed' "$kit/rt" >timed_rt

cc -O2 -o additions "$root/tools/measure/additions.c"
at_once() { # the mean of the processors, all at work
    local i
    for ((i = 0; i < $(nproc); i++)); do ./additions & done | awk '{ sum += $1 } END { printf "%.1f", sum / NR }'
}

used_and_stolen() { awk '/^cpu / { print $2 + $3 + $4 + $7 + $8, $9 }' /proc/stat; } # in hundredths of a second

began=$SECONDS
quiet=$(at_once)
before=$(used_and_stolen)
status=0
(cd "$root" && TIMES=$work/times python3 "$work/timed_rt" ci "$@") || status=$?

awk '$1 ~ /^[0-9.]+$/ && match($0, /--crate-name [a-z0-9_]+/) {
    name = substr($0, RSTART + 13, RLENGTH - 13)
    what = "proof"
    if ($0 ~ / --test( |$)/) what = "tests"
    if ($0 ~ / --incremental /) what = "edits"
    seconds[name " " what] += $1 + $2
    all += $1 + $2
}
END {
    for (it in seconds) printf "%7.0f s  %s\n", seconds[it], it
    printf "%7.0f s  all\n", all
}' times | sort -rn
echo "$before $(used_and_stolen)" |
    awk '{ used = $3 - $1; stolen = $4 - $2; printf "%.0f %% of the time was given to other machines\n", 100 * stolen / (used + stolen) }'
echo "a processor did $quiet additions at once before it and $(at_once) after it"
echo "the gate took $(((SECONDS - began) / 60)) min $(((SECONDS - began) % 60)) s"
exit "$status"
