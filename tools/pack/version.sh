#!/usr/bin/env bash
# Prints the version, which has one home: crates/tb_program_command_line/src/parser.rt:VERSION. The program and its
# servers answer it, and the man page and the packages take it from there. Files that spell it once more are compared,
# since none of them can read it: the help that ./tbc shows before a build, the manifest of VS Code's extension, and the
# newest release of CHANGELOG.md. Says which differs, and then ends with status 1.
set -euo pipefail
cd "$(dirname "${BASH_SOURCE[0]}")/../.."

version=$(sed -n 's/^pub const VERSION: &str = "\(.*\)";$/\1/p' crates/tb_program_command_line/src/parser.rt)
bad=0
has() { # FILE PATTERN: the first line of a file that fits has the version as the pattern's group
    local found
    found=$(sed -nE "s/$2/\\1/p" "$1" | head -n 1)
    [ "$found" = "$version" ] || { echo "version: $1 has ${found:-none}, and the program has $version" >&2; bad=1; }
}

has tools/help.txt '^tbc ([0-9].*)$'
has editors/vscode/package.json '^  "version": "(.*)",$'
has CHANGELOG.md '^## ([0-9][0-9.]*) - [0-9]{4}-[0-9]{2}-[0-9]{2}$'
echo "$version"
[ "$bad" = 0 ]
