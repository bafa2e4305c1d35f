#!/usr/bin/env bash
# The pages of `tbc page`: their screen (web/screen.js) under Node, with the bytes and the answers of
# trials/tb_screen_golden, and then in Chromium without a window, opened from the disk.
#
#   every example, and a program with all characters and colours, with keys as events: after each line the screen's
#   characters, colours and reversed cells are those of `tbc play --screen`; what is heard is what `tbc run` sends, the
#   figures are those of `tbc profile`; nothing is asked for but the page, and the browser complains of nothing. Again
#   in a window of 390 by 844, which shows all of the screen;
#   restarts with the same seed and another, words that are copied and pasted, RUN/STOP, a machine that goes wrong, the
#   speed, light and dark, larger and smaller.
#
# Negative cases come first: a wrong cell is found, and so is a request, which the page's policy refuses.
#
#   tools/try/page_browser.sh [PICTURE]    also writes a picture of Star Trek
. "$(dirname "${BASH_SOURCE[0]}")/../setup.sh"
needs_program
needs python3
installs node nodejs
installs chromium chromium
page=$root/tools/try/page

frames() { python3 "$page/frames.py" "$tbc" "$@"; } # WORD.. FILE, with what is typed on standard input

game() { # SOURCE LINE..
    local name line keys
    name=$(basename "$(dirname "$1")")_$(basename "$1" .bas)
    for line in "${@:2}"; do echo "$line"; done >"$name.lines"
    keys=$(tr '\n' '\r' <"$name.lines" | od -An -v -tx1 | tr -d ' \n')
    "$tbc" page "$1" "$name.html"
    frames "$1" <"$name.lines" >"$name.frames"
    "$tbc" build "$1" "$name.prg"
    "$tbc" run --prg "$name.prg" --keys "$keys" --limit 1000000000 >"$name.sent" 2>/dev/null || [ $? = 6 ]
    "$tbc" profile "$1" --keys "$keys" --limit 1000000000 >"$name.profile" 2>/dev/null || [ $? = 6 ]
}

while read -r path words; do
    # shellcheck disable=SC2086 # each is a line
    game "$root/$path" $words
done < <(grep -v '^#' "$page/games.txt")
frames --seed 77 "$root/examples/guess.bas" <examples_guess.lines >seeded.frames
printf '10 PRINT 1\n20 GOTO 20\n' >loops.bas
"$tbc" page loops.bas loops.html
"$tbc" page "$root/tools/measure/bench/sieve.bas" sieve.html
printf '\x00\xc0\xa9\x48\x20\xd2\xff\x4c\x34\xd0' >wrong.prg # LDA #$48, JSR $FFD2, JMP $D034
"$tbc" page --prg wrong.prg wrong.html
node "$page/screen_trial.mjs" "$root/trials/tb_screen_golden" examples_hello.html
node "$page/browser_trial.mjs" "$work" "${1:+$(cd "$OLDPWD" && realpath -m "$1")}"
