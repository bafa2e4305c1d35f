#!/usr/bin/env bash
# Compares docs/CHANGING.md with the code.
#  - Each file or folder that the page names between backticks is there: from crates/ or trials/ on, as
#    `tb_basic_meaning/src/needs.rt` or (without `.antt`) `tb_basic_meaning/specs/Need`, or else from the top.
#  - After a colon come names that the file defines, as in `tb_lower/src/lowering.rt:lower,lower_line`.
#  - Each name alone between backticks is a word of the code, of the definitions or of the proofs.
#  - A section on a kind of change names each file that names an example of it, as `Return` for a statement; or the
#    folder that has the file.
# Says what differs, and then ends with status 1.
. "$(dirname "${BASH_SOURCE[0]}")/../setup.sh"
page=$root/docs/CHANGING.md

# Sections, each with the name of an example, and the crates and files that mean something else by it, or need no place.
examples='A statement|Return|tb_opcodes|tb_gate|tb_gate_refutations|tb_tools_bench
A statement|Goto|tb_gate|tb_gate_refutations|tb_tools_bench
A cleverer piece of code|Remains|
A new command|Renumber|tb_program_files
A command of the debugger|Registers|tb_dap_values|tb_debug_stepping|tb_cpu|tb_debug_inspection
A request of the language server|Folds|tb_engine_check|tb_machine_disk|tb_program_jobs|tb_engine_test|tb_engine_transcripts|tb_editor_navigation
A request of the debug adapter|Disassemble|
A refusal|Unnumbered|
An assembler that listings are for|Acme|
A note of `check`|ThenNumber|
A note of `check`|EvenBound|'

bad=0
say() { echo "docs/CHANGING.md: $*"; bad=1; }

# What a page has between backticks, each once.
spans() { grep -o '`[^`]*`' "$1" | tr -d '`' | sort -u; }

path_of() { # NAME: the file or folder, or nothing
    local it
    for it in "$root/crates/$1" "$root/crates/$1.antt" "$root/trials/$1" "$root/$1"; do
        [ ! -e "$it" ] || { echo "$it"; return; }
    done
}

defines() { # FILE NAME
    grep -qE "^ *((pub|pub\(crate\)|abbrev|unfoldable|data|record|fn|enum|struct|trait|type|const|static) )*$2($|[^A-Za-z0-9_'])" "$1" ||
        grep -qE "fn $2\\b" "$1"
}

while IFS=: read -r name defined; do
    path=$(path_of "$name")
    [ -n "$path" ] || { say "there is no $name"; continue; }
    for it in ${defined//,/ }; do
        defines "$path" "$it" || say "$name has no $it"
    done
done < <(spans "$page" | grep -E '^[A-Za-z_.]+[0-9]*/[^ ]*$' | grep -vE '^(src|specs|proofs|wrong|controls|must-fail|crates)/$')

spans "$page" | grep -xE '[A-Za-z_][A-Za-z0-9_]*' >names
find "$root"/crates/*/{src,specs,proofs} "$root"/trials/*/src -type f -exec grep -ohwFf names {} + 2>/dev/null | sort -u >known
for name in $(sort -u names | comm -23 - known); do say "no file has the name $name"; done

while IFS='|' read -r section example others; do
    awk -v heading="## $section" '/^## / { here = $0 == heading } here' "$page" >told
    [ -s told ] || say "there is no section \"$section\""
    spans told | sed 's/:.*//' >found
    (cd "$root/crates" && grep -rwl "$example" -- */src */specs */proofs) >all || true
    { grep -vE "^(${others:-none})/" all || true; } | sed 's/\.antt$//' | sort >wanted
    [ -s wanted ] || say "no file has the example of \"$section\", $example"
    while read -r file; do
        name=$file
        until [ "$name" = . ] || grep -qxF "$name" found; do name=$(dirname "$name"); done
        [ "$name" != . ] || say "\"$section\" lacks $file"
    done <wanted
done <<<"$examples"
exit "$bad"
