# shellcheck shell=bash
# What the scripts of tools/ share: a folder that is removed when they end, the built program, the clock. To be
# sourced.
set -eu
root=$(cd "$(dirname "${BASH_SOURCE[0]}")/.." && pwd)
tbc=$root/crates/tbc/out/tbc
work=$(mktemp -d)
trap 'rm -rf "$work"' EXIT
cd "$work"

needs() { # COMMAND..: ends the script if one of them is missing
    local it
    for it; do
        command -v "$it" >/dev/null || { echo "$(basename "$0") needs $it" >&2; exit 1; }
    done
}

gets() { # PACKAGE..: installs packages of Debian
    local as=
    [ "$(id -u)" = 0 ] || as=sudo
    echo "installing $*" >&2
    ( # (one at a time, since trials run side by side)
        flock 9
        $as apt-get update -qq >/dev/null && $as env DEBIAN_FRONTEND=noninteractive apt-get install -qq -y --no-install-recommends "$@" >/dev/null
    ) 9>"${TMPDIR:-/tmp}/tbc-installs.lock"
}

installs() { # COMMAND PACKAGE: installs a package of Debian if the command is missing
    command -v "$1" >/dev/null && return
    gets "$2"
    needs "$1"
}

# Puts the programs of VICE on the path: those of this system, or ones that are unpacked in out/vice. Fails if there are none.
finds_vice() {
    command -v x64sc >/dev/null && return
    local unpacked=$root/out/vice
    "$unpacked/usr/bin/x64sc" --version >/dev/null 2>&1 || "$root/tools/get_vice.sh" "$unpacked" >/dev/null || return
    PATH=$unpacked/usr/bin:$PATH
}

needs_program() { [ -x "$tbc" ] || { echo "build the program first: ./tbc --build" >&2; exit 1; }; }

now() { printf '%s' "${EPOCHREALTIME/[.,]/}"; }

timed() { # NAME WORD..: appends the microseconds that a command takes to NAME.us, whatever its status
    local file=$1.us began
    shift
    began=$(now)
    "$@" >/dev/null 2>&1 || true
    echo $(($(now) - began)) >>"$file"
}

fastest() { sort -n "$1.us" | head -n 1; } # NAME; other load hardly counts if there are many rounds

median() { sort -n "$1.us" | awk '{ round[NR] = $1 } END { print round[int((NR + 1) / 2)] }'; }

processor_time() { # ROUNDS WORD..: the milliseconds of processor time that a command takes on average; other load hardly counts
    local rounds=$1 TIMEFORMAT='%3U %3S'
    shift
    seq "$rounds" >rounds
    { time xargs -I ROUND "$@" <rounds >/dev/null 2>&1 || true; } 2>&1 |
        awk -v rounds="$rounds" '{ printf "%.4f\n", ($1 + $2) * 1000 / rounds }'
}

counted() { # WORD..: the instructions of this processor that a command takes; those of its start grow with the environment
    env -i PATH="$PATH" valgrind --tool=callgrind --callgrind-out-file=/dev/null "$@" 2>&1 >/dev/null | awk '/Collected/ { print $NF }'
}
