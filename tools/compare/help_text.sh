#!/usr/bin/env bash
# Prints what the built program says to no words, to --version, to --help alone and after each command, and to words
# that are no command. That is tools/help.txt, which ./tbc shows if the program is not built.
#
#   tools/compare/help_text.sh >tools/help.txt    makes it anew
. "$(dirname "${BASH_SOURCE[0]}")/../setup.sh"
needs_program

show() { # WORD..
    echo "== tbc${*:+ $*}"
    "$tbc" "$@" 2>&1 || true
}

show
show --help
show --version
show WORD
show --OPTION
show help WORD
for command in $("$tbc" --help | sed -n '/^Commands:/,/^$/ s/^  \([a-z]*\) .*/\1/p'); do [ "$command" = help ] || show "$command" --help; done
