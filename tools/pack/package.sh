#!/usr/bin/env bash
# Makes packages of the proved program in a folder: tbc_VERSION_amd64.deb, tbc-VERSION-x86_64-linux.tar.gz and VS Code's
# extension, tinybasic-VERSION.vsix. The first two have the program, a man page, completions for bash, zsh and fish, files
# for editors, the extension, documents and examples. The same commit and program give the same bytes.
#
#     tools/pack/package.sh DIR
[ $# = 1 ] || { echo "tools/pack/package.sh takes a folder" >&2; exit 2; }
mkdir -p "$1"
to=$(cd "$1" && pwd)
. "$(dirname "${BASH_SOURCE[0]}")/../setup.sh"
needs_program
needs python3 dpkg-deb gzip tar strip
version=$("$tbc" --version | cut -d ' ' -f 2)
SOURCE_DATE_EPOCH=$(git -C "$root" log -1 --format=%ct)
export SOURCE_DATE_EPOCH

put() { # FILE PLACE: copies a file to a place below the package's root
    mkdir -p "tree/$(dirname "$2")"
    install -m 644 "$1" "tree/$2"
}

text() { # PLACE: what is read becomes a file there
    cat >text
    put text "$1"
}

document() { # FILE: a document, without links to what the package doesn't have
    "$root/tools/pack/installed_document.py" "$root/$1" | text "$share/doc/tbc/$1"
}

packed() { # PLACE: what is read becomes a compressed file there
    gzip -9n >text
    put text "$1"
}

share=usr/share
vsix=tinybasic-$version.vsix
put "$tbc" usr/bin/tbc
strip tree/usr/bin/tbc
chmod 755 tree/usr/bin/tbc
"$root/tools/pack/man_page.py" | packed $share/man/man1/tbc.1.gz
"$root/tools/pack/completions.py" bash | text $share/bash-completion/completions/tbc
"$root/tools/pack/completions.py" zsh | text $share/zsh/vendor-completions/_tbc
"$root/tools/pack/completions.py" fish | text $share/fish/vendor_completions.d/tbc.fish
for part in syntax ftdetect; do # (where vim looks, and neovim)
    for folder in vim/vimfiles nvim/site; do put "$root/editors/vim/$part/tinybasic.vim" $share/$folder/$part/tinybasic.vim; done
done
for it in mode dap; do put "$root/editors/emacs/tinybasic-$it.el" $share/emacs/site-lisp/tinybasic-$it.el; done
put "$root/editors/kate/tinybasic.xml" $share/org.kde.syntax-highlighting/syntax/tinybasic.xml
for version_of in 4 5; do put "$root/editors/gtksourceview/tinybasic.lang" $share/gtksourceview-$version_of/language-specs/tinybasic.lang; done
put "$root/editors/bat/tinybasic.sublime-syntax" $share/tbc/editors/bat/tinybasic.sublime-syntax
put "$root/editors/vscode/syntaxes/tinybasic.tmLanguage.json" $share/tbc/editors/tinybasic.tmLanguage.json
"$root/tools/pack/vsix.py" "$to/$vsix"
put "$to/$vsix" "$share/tbc/editors/$vsix"
document README.md
for it in "$root"/docs/*.md; do document "docs/${it##*/}"; done
for it in "$root"/docs/pictures/*; do put "$it" "$share/doc/tbc/docs/pictures/${it##*/}"; done
for it in "$root"/examples/*.bas "$root"/examples/*.transcript "$root"/examples/colour/* "$root"/examples/asm/*; do put "$it" "$share/doc/tbc/${it#"$root/"}"; done
"$root/tools/pack/debian_changelog.py" | packed $share/doc/tbc/changelog.gz
put "$root/COPYRIGHT" $share/doc/tbc/copyright
for it in LICENSE-MIT LICENSE-APACHE; do put "$root/$it" $it; done # (only for the archive: Debian has the texts)

find tree -exec touch -hd "@$SOURCE_DATE_EPOCH" {} +
tar --sort=name --owner=0 --group=0 --numeric-owner --mtime="@$SOURCE_DATE_EPOCH" \
    --transform "s#^tree#tbc-$version#" -cf - tree | gzip -9n >"$to/tbc-$version-x86_64-linux.tar.gz"

rm tree/LICENSE-*
mkdir tree/DEBIAN
cat >tree/DEBIAN/control <<END
Package: tbc
Version: $version
Architecture: amd64
Maintainer: Hakvorn maintainers <maintainers@users.noreply.hakvorn.example>
Section: devel
Priority: optional
Depends: libc6
Installed-Size: $(du -sk --apparent-size tree/usr | cut -f 1)
Description: verified Tiny BASIC cross compiler for the Commodore 64
 Compiles Tom Pittman's Tiny BASIC to PRG files for the Commodore 64, plays,
 debugs both ways, profiles and checks programs. With an assembler, a
 disassembler, a test machine, a stepper and disk images. It is proved that a
 compiled program sends what its source prints.
END
(cd tree && find usr -type f -exec md5sum {} + | LC_ALL=C sort -k 2 >DEBIAN/md5sums)
find tree -exec touch -hd "@$SOURCE_DATE_EPOCH" {} +
dpkg-deb --root-owner-group -Zxz --build tree "$to/tbc_${version}_amd64.deb" >/dev/null
ls "$to/tbc_${version}_amd64.deb" "$to/tbc-$version-x86_64-linux.tar.gz" "$to/$vsix"
