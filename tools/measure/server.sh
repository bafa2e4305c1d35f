#!/usr/bin/env bash
# Measures what `tbc lsp` takes to answer a change of a text of 20 KB: the instructions of a dialogue with 200 changes,
# less those of one with none. Ends with status 1 if it is more than it should be.
#
#   tools/measure/server.sh             needs the built program and valgrind
. "$(dirname "${BASH_SOURCE[0]}")/../setup.sh"
needs_program
needs python3
installs valgrind valgrind
most=6 # million instructions a change

python3 - <<'PYTHON'
import json

bodies = "LET A=A+1", "IF A<100 THEN GOTO 10", 'PRINT "VALUE ";A*2+B', "GOSUB 10", "INPUT C", "LET B=RND(5)"
lines = []
while sum(map(len, lines)) < 20480:
    n = 20 * (len(lines) // 2) + 10
    lines += "%d %s\n" % (n, bodies[n // 20 % 6]), "%d REM %s\n" % (n + 10, "a remark of some length " * 4)
text = "".join(lines) + "32767 END\n"


def frame(**message):
    content = json.dumps({"jsonrpc": "2.0", **message}).encode()
    return b"Content-Length: %d\r\n\r\n" % len(content) + content


for name, changes in ("none", 0), ("many", 200):
    with open(name, "wb") as out:
        out.write(frame(id=1, method="initialize", params={}))
        document = {"uri": "file:///measured.bas", "version": 1}
        out.write(frame(method="textDocument/didOpen", params={"textDocument": {**document, "text": text}}))
        for version in range(changes):
            out.write(frame(method="textDocument/didChange", params={
                "textDocument": {**document, "version": version + 2},
                "contentChanges": [{"text": text + "10 PRINT %d\n" % version}],
            }))
        out.write(frame(id=2, method="shutdown"))
        out.write(frame(method="exit"))
PYTHON

for name in none many; do
    counted "$tbc" lsp <$name >$name.count
    "$tbc" lsp <$name >answers
done
[ "$(grep -ao '"diagnostics":\[{"code":"replaced"' answers | wc -l)" = 200 ] || { echo "not each change is answered" >&2; exit 1; }
awk -v most="$most" '{ count[NR] = $1 } END {
    each = (count[2] - count[1]) / 200 / 1e6
    printf "a change of a text of 20 KB: %.2f million instructions\n", each
    exit each > most
}' none.count many.count
