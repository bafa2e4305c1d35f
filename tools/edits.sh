#!/usr/bin/env bash
# Says for each edit of must-fail/ where it is refused, by what `rt ci` printed: a function, and the goal that is
# not proved.
#
#   tools/edits.sh LOG [CRATE..]     (no CRATE: all)
#
# That goal is a clause of the function that the edit changes. A refusal in a written proof counts only with a control:
# there a change that means the same is proved (tools/wrong.py), so it is not refused because the proof no longer fits.
# Ends with status 1 where an edit is refused for another reason, or is not in the log.
set -euo pipefail
log=$(realpath "$1")
shift
cd "$(dirname "${BASH_SOURCE[0]}")/.."

function_at() { # FILE LINE: the function of the file that has the line, or that has this attribute
    local line
    line=$(awk -v from="$2" 'NR >= from && !/^ *#\[/ { print NR; exit }' "$1")
    head -n "${line:-$2}" "$1" | grep -E '^ *(pub(\([a-z]*\))? )?(const )?fn ' | tail -1 | sed 's/.*fn \([a-z_0-9]*\).*/\1/' || true
}

bad=0
said=0
for edit in $(find crates -path '*/must-fail/*.edit' | sort); do
    crate=$(cut -d/ -f2 <<<"$edit")
    name=$(basename "$edit" .edit)
    [ $# = 0 ] || [[ " $* " == *" $crate "* ]] || continue
    said=$((said + 1))
    file=$(sed -n 's/^file: //p' "$edit" | head -1)
    changed=$(grep -nFm1 -- "$(sed -n 's/^old: //p' "$edit" | head -1)" "crates/$crate/$file" | cut -d: -f1 || true)
    own=$(function_at "crates/$crate/$file" "${changed:-0}")
    why=$(sed -n "s|^rt: must-fail $crate/$name.edit: refused, as it must be: ||p" "$log" | tail -1)
    goal=$(sed -n 's/^[^`]*`\([^`]*\)`.*/\1/p' <<<"$why")
    control=crates/$crate/controls/$name.edit
    case $why in
    "note: src/"*"it is not proved that what the function ensures"* | "note: src/"*"(\`invariant_of-"*)
        # (a constant belongs to no function: one that cites it is refused, or a type that does)
        where=$(cut -d: -f2 <<<"$why" | tr -d " ")
        refused=$(function_at "crates/$crate/$where" "$(cut -d: -f3 <<<"$why")")
        [ "$where:$refused" = "${own:+$file:}${own:-$where:$refused}" ] && echo "$crate/$name: $refused, $goal" && continue
        ;;
    ./proofs/*)
        [ -e "$control" ] && echo "$crate/$name: ${own:-$file}, $goal in $(cut -d: -f1 <<<"${why#./}"), and it has a control" && continue
        ;;
    esac
    echo "$crate/$name: refused at no clause of ${own:-$file}: ${why:-it is not in the log, or not refused}"
    bad=$((bad + 1))
done
echo "$said edits, $bad of them refused for no clause"
[ "$bad" = 0 ]
