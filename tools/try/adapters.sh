#!/usr/bin/env bash
# Tries `tbc dap` with clients, without a screen. Emacs's dap-mode, as Debian has it, finds a bug backwards and types a
# line. A strict client of ours takes a walk of 300 requests by chance through each example, forth and back: each frame,
# number and answer is compared with what was seen before and with `tbc run`. Generated sources are launched, and a
# dialogue is cut after each byte.
. "$(dirname "${BASH_SOURCE[0]}")/../setup.sh"
needs_program
needs python3
installs emacs emacs-nox
dpkg -s elpa-dap-mode >/dev/null 2>&1 || gets elpa-dap-mode

cp "$root/tools/try/clients/pages.bas" pages.bas
printf '10 INPUT A\n20 PRINT A+1\n' >asks.bas
TBC=$tbc emacs -q --batch -L "$root/editors/emacs" --eval '(package-initialize)' -l "$root/tools/try/clients/dap_mode.el" \
    2>said || { cat said >&2; exit 1; }
python3 -B "$root/tools/try/clients/sessions.py" "$tbc" "$root/tools/try/clients/adapter.jsonl" "$root"/examples/*.bas
echo "Emacs debugs with tbc dap: 11 stops forth and back, a watch, a refusal and a line that is typed"
