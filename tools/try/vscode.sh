#!/usr/bin/env bash
# Tries VS Code's extension as its users get it: the package that tools/pack/vsix.py makes, unpacked, in a stand-in for
# the editor under Node, with the built program. Its manifest keeps the rules of tools/pack/vsix.py, it has 500 lines at
# most and nothing that is to be installed, each provider answers on a source that is edited, a server that dies is
# started again, each command and snippet does what it says, and the debugger's adapter says that it goes back.
. "$(dirname "${BASH_SOURCE[0]}")/../setup.sh"
needs_program
needs python3
installs node nodejs

"$root/tools/pack/vsix.py" tinybasic.vsix
python3 -m zipfile -e tinybasic.vsix unpacked
lines=$(cat unpacked/extension/*.js | wc -l)
[ "$lines" -le 500 ] || { echo "the extension has $lines lines" >&2; exit 1; }
mkdir sources
node "$root/tools/try/clients/vscode_trial.js" "$PWD/unpacked/extension" "$tbc" "$PWD/sources"
