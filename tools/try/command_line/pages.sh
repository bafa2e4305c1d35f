# shellcheck shell=bash disable=SC2034,SC2154
# Web pages: what is written where, titles, rows, and what is refused.
# A part of tools/try/command_line.sh, which has the calls.

file game.bas '10 PRINT "<A&B>"\n20 GOTO 10\n'
printf '\x00\xc0\x60' >short.prg
elsewhere=yes
row 0 '' '' page game.bas
row 0 '' '' page game.bas # over the one that is there
row 0 '' '*<title>game</title>*<h1>game</h1>*<data id="seed" value="1"></data>*' page game.bas -
row 0 '' $'*\n<li value="10" data-at="0C00">10 PRINT &quot;&lt;A&amp;B&gt;&quot;</li>\n<li value="20" data-at="*">20 GOTO 10</li>\n</ol>*' page game.bas -
row 0 '' '*<title>&lt;/title&gt;&quot;Ä</title>*value="7"*' page game.bas - --seed 7 --title '</title>"Ä'
row 0 '' '*<title>short</title>*value=""*>00c060</pre>*' page --prg short.prg -
row 0 '' '' page --prg short.prg other.html
row 0 '' '' page --prg short.prg -o short.html
same other.html short.html
from=game.bas
row 0 '' '*<title>-</title>*10 PRINT *' page -
from=short.prg
row 0 '' '*>00c060</pre>*' page --prg -
from=/dev/null
"$tbc" page game.bas - >shown.html
same shown.html game.html
elsewhere=
file slip.bas '10 PRIMT\n'
row 1 'tbc: 1:7: syntax*' '' page slip.bas out.prg --force
printf '\x00\xd0\x60' >closed.prg
row 1 'tbc: not a PRG: not RAM*' '' page --prg closed.prg out.prg --force
row 3 'tbc: read fault*' '' page nowhere.bas out.prg --force
row 3 'tbc: write fault*' '' page game.bas nowhere/out.html
row 2 'tbc: out.prg is not a page of tbc: --force replaces it' '' page game.bas out.prg
row 2 'tbc: game.bas is a source' '' page --prg short.prg game.bas
row 2 'error: *' '' page
row 2 'error: *' '' page game.bas a.html -o b.html
row 2 'error: *' '' page --prg short.prg a.html b.html
row 2 'error: *' '' page --prg short.prg a.html -o b.html
