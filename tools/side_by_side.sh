#!/usr/bin/env bash
# Runs commands side by side, as many as there are processors. Each line of standard input is one, for bash. What a
# command prints comes once it has ended, below its name and the seconds that it took. Ends with status 1 if one failed;
# then no further one is begun, and the end of what it printed comes once more, last.
set -euo pipefail
work=$(mktemp -d)
trap 'rm -rf "$work"' EXIT
export work

run_one() { # COMMAND
    local said status=0 began=$SECONDS
    said=$(mktemp "$work/XXXXXX")
    bash -c "$1" >"$said" 2>&1 </dev/null || status=$?
    {
        flock 9
        echo "== $1: $((SECONDS - began)) s$([ "$status" = 0 ] || echo ", FAILED with status $status")"
        cat "$said"
    } 9>"$work/lock"
    [ "$status" = 0 ] && return
    { echo "== FAILED: $1" && tail -n 60 "$said"; } >>"$work/failed"
    exit 255 # (which ends xargs)
}
export -f run_one

xargs -d '\n' -P "$(nproc)" -I COMMAND bash -c 'run_one "$1"' run_one COMMAND 2>"$work/complaints" || { cat "$work/failed" && exit 1; }
