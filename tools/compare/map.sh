#!/usr/bin/env bash
# Compares crates.txt, and trials/list.txt after it, with themselves and with docs/MAP.md.
#  - crates.txt and trials/list.txt: a crate is listed below all that it needs, in a group whose heading is a line
#    `# NAME`.
#  - The diagram of MAP.md, its first block, has the same groups with the same crates in the same order. Each line names
#    the crates that its own crate needs directly, which are those that it doesn't need by way of another one as well.
#  - The list of MAP.md, its tables of crates, has the same groups as headings `### NAME`, and a row for each crate. The
#    files that a row names, as `src/code.rt` or `specs/Words`, are those of its crate in crates/ or trials/.
#
#   tools/compare/map.sh            compares; says what differs, and then ends with status 1
#   tools/compare/map.sh --print    prints the lines that the diagram should have
. "$(dirname "${BASH_SOURCE[0]}")/../setup.sh"
needs awk

# The groups of crates.txt, and each crate with those that it needs directly, without `tb_`. A crate that is listed
# above one that it needs is reported on stderr, and the status is then 1.
layers() {
    cat "$root/crates.txt" "$root/trials/list.txt" | awk -F: '
        /^# / { print; next }
        /^tb/ {
            name = $1; count = split($2, words, " ")
            delete needed # by the crates that this one needs
            for (i = 1; i <= count; i++) if (words[i] ~ /^tb/) {
                if (!(words[i] in all)) {
                    print "crates.txt or trials/list.txt: " name " is listed above " words[i] ", which it needs" >"/dev/stderr"
                    bad = 1
                }
                all[name] = all[name] " " words[i] " " all[words[i]]
                split(all[words[i]], below, " ")
                for (b in below) needed[below[b]]
            }
            all[name] = all[name] " "
            line = name
            for (i = 1; i <= count; i++) if (words[i] ~ /^tb/ && !(words[i] in needed)) line = line " " words[i]
            if (line == name) line = line " -"
            gsub(/(^|[ ])tb_/, " ", line); sub(/^ /, "", line)
            print line
        }
        END { exit bad }'
}

# The same of the diagram, in which what a crate is about comes after two spaces or more.
diagram() {
    awk '/^```/ { if (seen++) exit; next } seen && NF' "$root/docs/MAP.md" |
        sed -E '/^#/b; s/^([a-z0-9_]+) +/\1 /; s/  .*//; s/ +$//'
}

# The groups and crates of the list.
list() { sed -nE 's/^### /# /p; s/^\| (tb_)?([a-z0-9_]+) \|.*/\2/p' "$root/docs/MAP.md"; }

# The files and folders that the list names and that aren't there.
missing() {
    sed -nE 's/^\| (tb\w*) \|/\1 /p' "$root/docs/MAP.md" | while read -r crate row; do
        { grep -oE '`(src|specs|proofs|data)[a-zA-Z0-9_./]*`' <<<"$row" || true; } | tr -d '`' | while read -r file; do
            [ -e "$root/crates/$crate/$file" ] || [ -e "$root/crates/$crate/$file.antt" ] || [ -e "$root/trials/$crate/$file" ] ||
                echo "$crate/$file"
        done
    done
}

# The lines with what each crate needs in the order of the alphabet.
sorted() {
    while read -r name others; do
        # shellcheck disable=SC2046,SC2086 # each name is a word
        [ "$name" = '#' ] && echo "# $others" || echo "$name" $(printf '%s\n' $others | sort)
    done
}

if [ "${1:-}" = --print ]; then
    layers
    exit
fi
bad=0
layers >lines || bad=1
sorted <lines >wanted
diagram | sorted >found
diff wanted found || { echo 'docs/MAP.md has another diagram (>) than crates.txt and trials/list.txt ask for (<)'; bad=1; }
sed -E '/^#/!s/ .*//' lines >wanted
list >found
diff wanted found || { echo 'docs/MAP.md has another list of crates (>) than crates.txt and trials/list.txt (<)'; bad=1; }
missing >absent
sed 's/^/docs\/MAP.md names a file that is not there: /' absent
[ ! -s absent ] || bad=1
exit "$bad"
