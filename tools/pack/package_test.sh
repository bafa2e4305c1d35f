#!/usr/bin/env bash
# Tries the packages that tools/pack/package.sh made in a folder. Lintian and man have nothing to say; each command runs
# in an empty root that the package was installed in, and each example of the man page among the examples; no link of
# the documents is dead; neovim knows a source; bash and fish complete words, and zsh takes the completions; the archive
# has the same files. What can't be installed here is left out, and that is said. Prints what is not so, and then ends
# with status 1.
#
#     tools/pack/package_test.sh DIR
[ $# = 1 ] || { echo "tools/pack/package_test.sh takes the folder of the packages" >&2; exit 2; }
packages=$(cd "$1" && pwd)
. "$(dirname "${BASH_SOURCE[0]}")/../setup.sh"
needs_program
needs python3 dpkg dpkg-deb tar

rows=0
failed=0
so() { # OTHERWISE WORD..: says OTHERWISE, and what WORD.. said, if it fails
    local otherwise=$1
    shift
    rows=$((rows + 1))
    "$@" >said 2>&1 && return
    failed=$((failed + 1))
    echo "$otherwise: $(head -n 20 said)"
}
has() { # COMMAND PACKAGE: whether a tool is there, or could be installed; says if it isn't
    (installs "$1" "$2") && return
    echo "$1 is not there: its part is left out"
    return 1
}
prints() { # WANTED WORD..: whether WORD.. prints WANTED, as its first word
    local wanted=$1 found
    shift
    found=$("$@" </dev/null) || true
    echo "found ${found:-nothing}"
    [ "${found%%[[:space:]]*}" = "$wanted" ]
}
version=$("$tbc" --version | cut -d ' ' -f 2)
package=$packages/tbc_${version}_amd64.deb

# The package, and the root that it is installed in: empty, but for the C library
if has lintian lintian; then
    so 'lintian has something to say' lintian --allow-root --fail-on error,warning --suppress-tags initial-upload-closes-no-bugs "$package"
fi
mkdir -p root/var/lib/dpkg/{info,updates} root/bin
: >root/var/lib/dpkg/status
so 'the package does not install' dpkg --root="$work/root" --log=/dev/null --force-depends --force-not-root --force-script-chrootless \
    --force-bad-path -i "$package"
share=root/usr/share
(cd root && find usr -type f ! -path '*/DEBIAN/*' | LC_ALL=C sort) >installed
tar -tzf "$packages/tbc-$version-x86_64-linux.tar.gz" | sed -n "s#^tbc-$version/\(usr/.*[^/]\)\$#\1#p" | LC_ALL=C sort >archived
so 'the archive has other files than the package' diff installed archived

# Each command, among the examples
cp -R $share/doc/tbc/examples root/tried
printf 'LDA #$48\nJSR $FFD2\nRTS\n' >root/tried/h.asm
ldd "$tbc" | grep -o '/[^ ]*' | while read -r library; do install -D "$library" "root$library"; done
frame() { printf 'Content-Length: %d\r\n\r\n%s' "${#1}" "$1"; }
words_of() { # COMMAND: the words with which it is tried
    case $1 in
        build) echo tried/hello.bas tried/hello.prg ;;
        run | step | debug | profile | page | check | format | renumber) echo tried/hello.bas ;;
        play | test) echo tried/guess.bas ;;
        asm) echo tried/h.asm tried/h.prg --at C000 ;;
        assemble) echo tried/asm/sieve.asm tried/sieve.prg ;;
        dis) echo tried/sieve.prg ;;
        disk) echo tried/games.d64 tried/hello.prg ;;
        help) echo run ;;
        lsp | dap | version) ;;
        *) echo "no words to try $1" ;;
    esac
}
typed() { # COMMAND: what it finds on its standard input
    case $1 in
        lsp) for it in '"id":1,"method":"initialize","params":{}' '"id":2,"method":"shutdown"' '"method":"exit"'; do frame "{\"jsonrpc\":\"2.0\",$it}"; done ;;
        dap) ;;
        *) seq 1 100 ;;
    esac
}
in_root() { # WORD..: calls the installed program in its root, where one may do so
    if [ "$(id -u)" = 0 ]; then chroot root /usr/bin/tbc "$@"; else (cd root && usr/bin/tbc "$@"); fi
}
"$tbc" --help | sed -n '/^Commands:/,/^$/s/^  \([a-z]*\) .*/\1/p' >commands
while read -r command; do
    typed "$command" >typed
    mapfile -t words < <(words_of "$command" | tr ' ' '\n')
    so "the installed $command does not run" in_root "$command" "${words[@]}" <typed
done <commands
so 'the installed program prints something else' prints HELLO in_root run tried/hello.bas

# The documents, and neovim, which finds its files among the package's
so 'a link of the installed documents is dead' "$root/tools/compare/links.py" $share/doc/tbc
if has nvim neovim; then
    so 'neovim does not know a source' prints tinybasic env XDG_DATA_DIRS="$PWD/$share" nvim --headless -u NONE -i NONE -c 'syntax on' \
        -c 'edit root/tried/hello.bas' -c 'lua io.stdout:write(vim.bo.filetype == vim.b.current_syntax and vim.bo.filetype or "other")' -c 'qall!'
fi

# The man page: each command has its part, each example runs, and man warns of nothing
if has man man-db; then
    so 'man has something to say' test -z "$(LC_ALL=C.UTF-8 MANWIDTH=80 man --warnings -E UTF-8 -l -Tutf8 -Z $share/man/man1/tbc.1.gz 2>&1 >/dev/null)"
fi
gzip -dc $share/man/man1/tbc.1.gz >page
sed -n 's/^\.SS //p' page >described
so 'the man page has other commands than the help' diff commands described
sed -n 's/^\\fB\(tbc .*\)\\fR$/\1/p' page | sed 's/\\-/-/g' >examples
while read -r example; do
    so "the man page's $example does not run" env PATH="$PWD/root/usr/bin:$PATH" bash -c "cd root/tried && $example" < <(seq 1 100)
done <examples

# Completions
complete_in_bash() { # WORD..: what bash completes the last word to
    bash --norc -c '. "$1"; shift; COMP_WORDS=("$@") COMP_CWORD=$(($# - 1)); _tbc; echo "${COMPREPLY[@]}"' - $share/bash-completion/completions/tbc "$@"
}
so 'bash does not complete a command' prints build complete_in_bash tbc bui
so 'bash does not complete an option' prints --limit complete_in_bash tbc run --lim
so 'bash does not complete a command after help' prints renumber complete_in_bash tbc help renu
so 'bash completes files after help' test -z "$(complete_in_bash tbc help comm)"
so 'bash does not complete a file' prints commands complete_in_bash tbc run comm
if has zsh zsh; then
    so 'zsh does not take the completions' zsh -n $share/zsh/vendor-completions/_tbc
    so 'zsh has no completions of tbc' prints _tbc zsh -fc "fpath=($share/zsh/vendor-completions \$fpath)
        autoload -Uz compinit && compinit -D -u && print \$_comps[tbc]"
fi
if has fish fish; then
    completes() { # WANTED TEXT: whether fish completes a line so
        prints "$1" fish --no-config -c "source $share/fish/vendor_completions.d/tbc.fish; complete -C '$2'"
    }
    so 'fish does not complete a command' completes build 'tbc bui'
    so 'fish does not complete an option' completes --limit 'tbc run --lim'
    so 'fish does not complete a command after help' completes renumber 'tbc help renu'
    so 'fish completes files after help' completes '' 'tbc help comm'
fi

echo "$rows findings on the packages, $failed other than they should be"
[ "$failed" = 0 ]
