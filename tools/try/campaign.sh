#!/usr/bin/env bash
# A campaign of trials against machines that are not this project's, for some minutes, or without end: generated
# programs in Tiny BASIC run here, beside hostile ROMs, in sim65 (of cc65) and in VICE, and random PRGs here and in sim65
# (foreign/campaign.py). Each difference is kept in out/campaign, with a script that repeats it. Without VICE its runs
# are left out, and that is said.
#
#   tools/try/campaign.sh [SEED] [MINUTES] [PROGRAMS PRGS]    SEED is 1, MINUTES 4 by default; 0 minutes are without end.
#                                                         It ends as soon as it has made PROGRAMS and PRGS
#   JOBS=1 nice tools/try/campaign.sh 7 0                     the same on one processor
. "$(dirname "${BASH_SOURCE[0]}")/../setup.sh"
needs_program
trials=$root/crates/tb_tools_bench/out/tb_tools_bench
[ -x "$trials" ] || { echo "build the trials first: cd crates/tb_tools_bench && rt run <stdin" >&2; exit 1; }
needs python3
installs sim65 cc65
foreign=$root/tools/try/foreign
"$tbc" asm "$foreign/sim65.asm" sim65.prg --at A000
vice=-
if finds_vice; then
    vice=vice.prg
    "$tbc" asm "$foreign/kernal.asm" "$vice" --at E000
else
    echo "x64sc is not there: the runs in VICE are left out"
fi
minutes=${2:-4}
[ "$minutes" != 0 ] || minutes=inf
python3 -B "$foreign/campaign.py" "$tbc" "$trials" sim65.prg "$vice" "${1:-1}" "$minutes" "$root/out/campaign" "${@:3}"
