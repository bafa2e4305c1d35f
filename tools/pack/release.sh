#!/usr/bin/env bash
# Makes all that a release has in a folder, and tries it: the packages of tools/pack/package.sh, the text of the
# release, which is its part of CHANGELOG.md, and SHA256SUMS of them. All that spells the version has the same one, the
# newest part of CHANGELOG.md is a release, and the same commit and program give the same bytes twice. Says what is not
# so, and then ends with status 1.
#
#     tools/pack/release.sh DIR
[ $# = 1 ] || { echo "tools/pack/release.sh takes a folder" >&2; exit 2; }
mkdir -p "$1"
to=$(cd "$1" && pwd)
[ -z "$(ls -A "$to")" ] || { echo "$1 is not empty" >&2; exit 2; }
. "$(dirname "${BASH_SOURCE[0]}")/../setup.sh"
needs_program
needs sha256sum

version=$("$root/tools/pack/version.sh")
[ "$("$tbc" --version)" = "tbc $version" ] || { echo "the program that is built is $("$tbc" --version), not $version" >&2; exit 1; }
newest=$(grep -m 1 '^## ' "$root/CHANGELOG.md")
[[ $newest == "## $version - "* ]] || { echo "CHANGELOG.md begins with \"$newest\"" >&2; exit 1; }

make() { # FOLDER: makes the release there
    "$root/tools/pack/package.sh" "$1" >/dev/null
    (
        cd "$1"
        {
            echo "# tbc $version"
            sed -n "/^## $version - /,/^## /{/^## /d;p}" "$root/CHANGELOG.md" | sed 's# (\[README\])##; s#(\[\([A-Z]*\)\])#(docs/\1.md)#'
            echo "The pages that are named come with the packages, in /usr/share/doc/tbc. \`apt install ./tbc_${version}_amd64.deb\`"
            echo "installs all on Debian and Ubuntu but VS Code's extension, which is"
            echo "\`code --install-extension tinybasic-$version.vsix\`. From the archive, \`usr/bin/tbc\` runs where it lies."
        } >RELEASE.md
        sha256sum -- * >SHA256SUMS
    )
}

make "$to"
make "$PWD/again"
diff -r "$to" again || { echo "the same commit gives other bytes" >&2; exit 1; }
(cd "$to" && sha256sum --check --quiet SHA256SUMS)
"$root/tools/pack/package_test.sh" "$to"
ls "$to"
