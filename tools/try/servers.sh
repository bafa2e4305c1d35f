#!/usr/bin/env bash
# Tries `tbc lsp` with clients that are not ours, without a screen: neovim's own client, by the lines of
# docs/EDITORS.md, and Emacs's eglot, as Debian has them. They edit a source, and what they show of it is compared each
# time with what they should show. And what is published of 300 generated sources, and of texts of 1,048,576 bytes, is
# compared with what `tbc check` says of them. At last a dialogue is cut after each byte, and a text is changed 2,000
# times.
. "$(dirname "${BASH_SOURCE[0]}")/../setup.sh"
needs_program
needs python3
installs nvim neovim
installs emacs emacs-nox
dpkg -s elpa-eglot >/dev/null 2>&1 || gets elpa-eglot

printf '10 PRINT "é"\n20 GOTO 99\n30 PRIMT\n' >worked.bas
awk '/^```/ { inside = $0 == "```lua" && !seen++; next } inside' "$root/docs/EDITORS.md" >init.lua
PATH=$(dirname "$tbc"):$PATH nvim --headless --clean -u init.lua --cmd "set runtimepath^=$root/editors/vim" \
    -c "luafile $root/tools/try/clients/neovim.lua" worked.bas
TBC=$tbc emacs -q --batch -L "$root/editors/emacs" --eval '(package-initialize)' -l "$root/tools/try/clients/eglot.el" \
    2>said || { cat said >&2; exit 1; }
python3 -B "$root/tools/try/clients/diagnostics.py" "$tbc"
python3 -B "$root/tools/try/clients/dialogues.py" "$tbc" "$root/tools/try/clients/dialogue.jsonl"
echo "neovim and Emacs show what tbc lsp publishes: 11 and 4 states of a source; 14 and 5 requests are answered; the server ends in good order"
