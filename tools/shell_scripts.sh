#!/usr/bin/env bash
# Runs shellcheck over all shell scripts of this repository. It is installed if it is missing; if that can't be, this is
# left out.
set -euo pipefail
cd "$(dirname "${BASH_SOURCE[0]}")/.."
if ! (. tools/setup.sh && installs shellcheck shellcheck); then
    echo "shellcheck is not there: its part is left out"
    exit 0
fi
mapfile -t scripts < <(git ls-files --cached --others --exclude-standard | while read -r file; do
    ! head -n 1 "$file" 2>/dev/null | grep -q '^#!.*\(ba\)\?sh$\|^# shellcheck shell=' || echo "$file"
done)
shellcheck --severity=warning "${scripts[@]}"
echo "${#scripts[@]} shell scripts, no warning of shellcheck"
