# shellcheck shell=bash disable=SC2034,SC2154
# At a terminal: prompts, the stepper, the debugger and profiles.
# A part of tools/try/command_line.sh, which has the calls.

# At a terminal a prompt is seen before its answer is typed, and a warning before either
at_terminal() { by=(python3 "$root/tools/try/at_a_terminal.py" "$@" --); }
at_terminal '? ' 7 '? ' 21 '? ' ''
row 6 '' $'\\? 7\n\n14\n\\? 21\n\n42\n\\? tbc: waits for a key' play double.bas
at_terminal $'30\r\n? ' 5
row 0 '' $'tbc: warning: line 20: no line 30\n\\? 5\n\n\n!1 AT 20\ntbc: note: fault 1 at line 20: no line 30' play ask.bas
by=()

steps() { # SHOWN COMMANDS WORD..
    local shown=$1
    file commands "$2"
    shift 2
    row 0 '' "$shown" step "$@"
}
step_rows() {
    local events
    file let.bas '10 A=5\n20 END\n'
    file dice.bas '10 A=RND(100)\n20 END\n'
    from=commands
    steps $'nothing back\n080E A=00 X=00 Y=00 S=F0 P=30 - running\n080D A=00 X=00 Y=00 S=F0 P=30 - running' 'b\ns\nb\nq\ns\n' let.bas
    steps $'no such line\nat 20\n5\n9\ndivision by zero\nhas RND\nwhat\\?\nwhat\\?\n0' \
        'g 15\ng 20\nv A\ne A*2-1\ne 1/0\ne RND(2)\nx\ne A+\nd' let.bas
    events=$(steps_to '20 running' let.bas)
    steps 'at 20' 'g 20\n' let.bas --limit "$events"
    steps limit 'g 20\n' let.bas --limit $((events - 1))
    events=$(steps_to returned hello.bas)
    row 0 '' HELLO run hello.bas --limit "$events"
    row 5 'tbc: step limit' HELLO run hello.bas --limit $((events - 1))
    built HELLO hello.bas out.prg
    row 0 '' HELLO run --prg built.prg --limit "$events"
    row 5 'tbc: step limit' HELLO run --prg built.prg --limit $((events - 1))
    steps $'at 20\n22' 'g 20\nv A\n' dice.bas
    steps $'at 20\n95' 'g 20\nv A\n' dice.bas --seed 2
    steps 'at 20' 'g 20\n' hello.bas
    steps returned 'g 20\n' hello.bas --answers 03
    steps $'at 10\nreturned' 'g 10\ng 10\n' let.bas
    steps $'what\\?\nwhat\\?\nwhat\\?\nwhat\\?\nat 20' 'g 65536\ng 000020\ng  20\nss\ng 00020' let.bas
    steps waits 'g 30\n' wait.bas
    steps $'at 30\n12' 'g 30\nv A\n' wait.bas --keys 31320d
    steps $'at 30\n12' 'g 30\nv A\n' wait.bas --type '12\n'
    steps '' '' let.bas
    file commands ''
    row 0 'tbc: warning: line 20: no line 30' '' step warn.bas
    steps $'C002 A=48 X=00 Y=00 S=F0 P=30 - running\nFFD2 A=48 X=00 Y=00 S=EE P=30 - running\nC002 A=48 X=00 Y=00 S=F0 P=30 - running' \
        's\ns\nb\nq\n' --prg routine.prg
    steps $'no source\nno source\nno source\nno source\nwhat\\?\nnothing back' 'g 10\nv A\ne 1\nd\nx\nb\n' --prg routine.prg
    steps '080E A=00 X=00 Y=00 S=F0 P=30 - running' 's\n' --prg built.prg --seed 2 --fit
    steps $'FFE4 A=00 X=00 Y=00 S=EE P=30 - running\nC003 A=41 X=00 Y=00 S=F0 P=30 - running' 's\ns\n' --prg poll.prg --answers 41
    each 1 bad.prg step --prg bad.prg <<'END'
not a PRG: too short|\x01
not a PRG: runs past the end|\xff\xff\x60\x60
not a PRG: not RAM|\x00\xd0\x60
END
    refused_sources step SOURCE
    row 2 'tbc: bad key list' '' step nowhere.bas --keys 0
    row 2 'tbc: bad key list' '' step --prg nowhere.prg --answers 0
    row 3 'tbc: read fault' '' step --prg nowhere.prg
    row 2 'error: *' '' step hello.bas --prg routine.prg
    row 3 'tbc: read fault' '' step nowhere.bas
    from=folder
    row 3 'tbc: read fault' '' step let.bas
    row 3 'tbc: read fault' '' step long.bas
    row 3 'tbc: read fault' '' step --prg routine.prg
    from=commands
    to=/dev/full
    file commands 's\n'
    row 3 'tbc: write fault' '' step let.bas
    row 3 'tbc: write fault' '' step --prg routine.prg
    to=shown
    from=/dev/null
}
[ $with_step = no ] || step_rows

profile_rows() {
    row 0 '' $' line *statement\nstart *\n   10 *\n  sum *100.0%' profile let.bas
    row 5 'tbc: step limit' $' line *\n  sum *' profile let.bas --limit 5
    row 6 'tbc: waits for a key' $' line *\n  sum *' profile wait.bas
    row 0 '' $' line *\n  sum *' profile wait.bas --type '12\n'
    row 0 '' $' line *\n  sum *' profile let.bas --rude 7
    row 0 '' $' addr      times        cycles   share  instruction
 C000          1             2   10.0%  LDA #$48
 C002          1             6   30.0%  JSR $FFD2
 C005          1             6   30.0%  RTS
 FFD2          1             6   30.0%  chrout
  sum          4            20  100.0%' profile --prg routine.prg
    row 5 'tbc: step limit' $' addr *\n C000 *\n C002 *\n  sum          2             8  100.0%' profile --prg routine.prg --limit 2
    row 6 'tbc: waits for a key' $' addr *\n  sum *' profile --prg echo.prg
    row 0 '' $' addr *\n FFE4 * getin\n  sum          5 *' profile --prg poll.prg --answers 41 --seed 2 --fit
    row 0 '' $' addr *\n  sum *' profile --prg spoilt.prg --rude 1
    row 2 'error: *' '' profile --prg routine.prg --html page.html
    row 2 'error: *' '' profile hello.bas --prg routine.prg
    row 2 'tbc: bad key list' '' profile --prg nowhere.prg --keys 0
    row 3 'tbc: read fault' '' profile --prg nowhere.prg
    to=/dev/full
    row 3 'tbc: write fault' '' profile --prg routine.prg
    to=shown
    each 1 bad.prg profile --prg bad.prg <<'END'
not a PRG: too short|\x01
not a PRG: runs past the end|\xff\xff\x60\x60
not a PRG: not RAM|\x00\xd0\x60
END
    file less.bas '10 PRINT "<&>"\n20 GOTO 40\n30 PRINT\n40 END\n'
    row 0 '' $'*\n   30          0            0             0    0.0%  PRINT\n   40 *' profile less.bas --html page.html
    sed -n '/^<h1>/,$p' page.html >page.body
    cat >page.wanted <<'END'
<h1>Profile of less.bas</h1>
<table class="sums">
<caption>The whole run.</caption>
<tr><th scope="row">end</th><td class="text">returned</td></tr>
<tr><th scope="row">lines begun</th><td>3</td></tr>
<tr><th scope="row">instructions</th><td>258</td></tr>
<tr><th scope="row">cycles</th><td>898</td></tr>
<tr><th scope="row">seconds of a PAL machine</th><td>0.001</td></tr>
<tr><th scope="row">seed</th><td>1</td></tr>
<tr><th scope="row">fit</th><td class="text">no</td></tr>
<tr><th scope="row">limit of events</th><td>10,000,000</td></tr>
<tr><th scope="row">keys</th><td class="text">none</td></tr>
<tr><th scope="row">answers</th><td class="text">none</td></tr>
<tr><th scope="row">ROM</th><td class="text">quiet</td></tr>
</table>
<table>
<caption>Each line, with what it took. A service of the ROM counts as one instruction and 6 cycles: what it takes beyond \
them is unmeasured. Bars and colours compare cycles with those of the row that took most.</caption>
<thead>
<tr><th scope="col">line</th><th scope="col">times</th><th scope="col">instructions</th><th scope="col">cycles</th>\
<th scope="col">cycles a time</th><th scope="col">share</th><th class="bar"></th>\
<th scope="col" class="source">statement</th></tr>
</thead>
<tbody>
<tr class="h9"><th scope="row">start</th><td>1</td><td>192</td><td>634</td><td>634</td><td>70.6%</td>\
<td class="bar"><span style="width: 10.0em"></span></td><td class="source"></td></tr>
<tr class="h4"><th scope="row">10</th><td>1</td><td>56</td><td>223</td><td>223</td><td>24.8%</td>\
<td class="bar"><span style="width: 3.5em"></span></td><td class="source">PRINT &quot;&lt;&amp;&gt;&quot;</td></tr>
<tr class="h1"><th scope="row">20</th><td>1</td><td>5</td><td>19</td><td>19</td><td>2.1%</td>\
<td class="bar"><span style="width: 0.3em"></span></td><td class="source">GOTO 40</td></tr>
<tr class="never"><th scope="row">30</th><td>0</td><td>0</td><td>0</td><td></td><td>0.0%</td>\
<td class="bar">never ran</td><td class="source">PRINT</td></tr>
<tr class="h1"><th scope="row">40</th><td>1</td><td>5</td><td>22</td><td>22</td><td>2.4%</td>\
<td class="bar"><span style="width: 0.3em"></span></td><td class="source">END</td></tr>
</tbody>
</table>
</body>
</html>
END
    sed -i -e ':more' -e '/\\$/{N;s/\\\n//;b more}' page.wanted
    same page.body page.wanted
    rows=$((rows + 1))
    grep -q '^<title>Profile of less.bas</title>$' page.html && grep -q 'prefers-color-scheme: dark' page.html \
        && ! grep -q -i -e '<script' -e 'http' page.html || { failed=$((failed + 1)) && echo 'the head of the page is another'; }
    row 5 'tbc: step limit' $' line *\n  sum *' profile forever.bas --limit 5000 --fit --seed 9 --type 'a\n' --answers 00 --rude 7 --html page.html
    sed -n '/"row">\(end\|seed\|fit\|limit\|keys\|answers\|ROM\)/{s/<[^>]*>/ /g;p}' page.html >page.body
    holds page.body '  end  step limit  \n  seed  9  \n  fit  yes  \n  limit of events  5,000  \n  keys  410d  \n  answers  00  \n  ROM  rude 7  \n'
    row 3 'tbc: write fault' $' line *\n  sum *' profile less.bas --html folder
    refused_sources profile SOURCE
    row 2 'tbc: bad key list' '' profile nowhere.bas --keys 0
    row 3 'tbc: read fault' '' profile nowhere.bas
    row 2 'tbc: same file twice' '' profile less.bas --html less.bas
    row 2 'tbc: same file twice' '' profile less.bas --keys-file typed.txt --html typed.txt
    to=/dev/full
    row 3 'tbc: write fault' '' profile let.bas
    to=shown
}
profile_rows

debug_rows() {
    file let.bas '10 A=5\n20 END\n'
    file commands 'n\nv\nn\np 2\nrc\nx\nz\nq\nn\n'
    from=commands
    row 0 '' $'10 A=5\n20 END\nA=5\nreturned\n10 A=5\n10 A=5\n0C00 A=* 10 running\nwhat\\?' debug let.bas
    row 0 '' $'10 A=5\n20 END\nA=5\nreturned\n10 A=5\n10 A=5\n0C00 A=* 10 running\nwhat\\?' debug let.bas --rude 7
    file commands 'next\nback\nnext 2\nback 1\ncontinue\nnexts\nnext x\nhelp\nquit\nn\n'
    row 0 '' $'10 A=5\n20 END\n10 A=5\nreturned\n20 END\nreturned\nwhat\\?\nwhat\\?\nn \\[K\\] *\nq          end*' debug let.bas
    file commands '\nn\n\nv\n\nback\n\nf\n\nz\n'
    row 0 '' $'10 A=5\nwhat\\?\n20 END\nreturned\nA=5\nreturned\n20 END\n10 A=5\nstops at faults\n10 A=5\nwhat\\?' debug let.bas
    file faults.bas '10 A=2\n20 PRINT 6/A\n30 A=A-1\n40 GOTO 20\n'
    file commands 'f\nc\nv\ne A+1\n\np\nc\nf\nt 0\nc\nq\n'
    row 0 '' $'10 A=2\nstops at faults\n| 3\n| 6\n20 PRINT 6/A\nnone\n1\n| \n| !2 AT 20\nreturned\n20 PRINT 6/A\n| \n| !2 AT 20
returned\ngoes through faults\n10 A=2\n| 3\n| 6\n| \n| !2 AT 20\nreturned' debug faults.bas
    file commands 'c\nc\nk 5\nb 40\nc\nrc\n'
    row 0 '' $'*\nwaits\nwaits\ntyped\n*' debug wait.bas
    row 0 '' $'*\nlimit\n*' debug forever.bas --limit 500
    row 0 'tbc: warning: line 20: no line 30' '10 *' debug warn.bas
    refused_sources debug SOURCE
    row 2 'tbc: bad key list' '' debug nowhere.bas --keys 0
    row 3 'tbc: read fault' '' debug nowhere.bas
    file commands 'n\nn\nb $C005\nb\nc\nv\np 2\nt 0\nx\nb $C00\ng $C002\nq\n'
    row 0 '' $'LDA #$48 ; C000\nJSR $FFD2 ; C002\n--\nset\n$C005\n| H\nRTS ; C005\nno source\nJSR $FFD2 ; C002\nLDA #$48 ; C000
C000 A=00 X=00 Y=00 S=F0 P=30 - running\nwhat\\?\nJSR $FFD2 ; C002' debug --prg routine.prg
    row 0 '' $'LDA #$48 ; C000\n*' debug --prg routine.prg --rude 7 --seed 2 --fit
    each 1 bad.prg debug --prg bad.prg <<'END'
not a PRG: too short|\x01
not a PRG: runs past the end|\xff\xff\x60\x60
not a PRG: not RAM|\x00\xd0\x60
END
    row 2 'tbc: bad key list' '' debug --prg nowhere.prg --keys 0
    row 3 'tbc: read fault' '' debug --prg nowhere.prg
    row 2 'error: *' '' debug let.bas --prg routine.prg
    from=folder
    row 3 'tbc: read fault' '10 A=5' debug let.bas
    row 3 'tbc: read fault' 'LDA *' debug --prg routine.prg
    from=commands
    to=/dev/full
    row 3 'tbc: write fault' '' debug let.bas
    row 3 'tbc: write fault' '' debug --prg routine.prg
    to=shown
    at_terminal '> ' n '> ' q
    row 0 '' $'10 A=5\n> n\n20 END\n> q' debug let.bas
    at_terminal '> ' c '> ' q
    row 0 '' $'*> c\n*tbc: * of 400 million events*\e[K*limit\n*> q' debug forever.bas --limit 400000000
    by=()
    from=/dev/null
    row 0 '' '10 A=5' debug let.bas
}
debug_rows

# Each command of the debugger at a terminal, its answer awaited before the next one is typed.
TALK=() # the turns: a prompt, and what is typed after it
SHOWN=
asks() { # COMMAND ANSWER: a turn, and what it shows as a pattern
    TALK+=('> ' "$1")
    SHOWN+="> $1"$'\n'"$2"$'\n'
}
again() { # ANSWER: a turn with an empty line
    TALK+=('> ' $'\n')
    SHOWN+=$'> \n'"$1"$'\n'
}
debug_walk() {
    file walk.bas '10 LET A=1\n20 GOSUB 100\n30 PRINT "A=",A\n40 INPUT B\n50 PRINT A*B\n60 END\n100 A=A+6\n110 RETURN\n'
    SHOWN=$'10 LET A=1\n'
    asks h $'n \\[K\\]      on by K lines\n*\nq          end'
    again 'what\? (h lists the commands)'
    asks n '20 GOSUB 100'
    asks v A=1
    asks 'v b' B=0
    asks 'e A*2+1' 3
    asks r none
    asks o none
    asks 'b 110' set
    asks b '110 RETURN'
    asks 'w A' set
    asks c '110 RETURN'
    asks r '30 PRINT "A=",A'
    asks l $'  30 PRINT "A=",A\n  40 INPUT B\n  50 PRINT A\\*B\n  60 END\n  100 A=A+6\n\\* 110 RETURN'
    asks rc '100 A=A+6'
    asks 't 0' '10 LET A=1'
    asks 'b 110' cleared
    asks 'w A' cleared
    asks 'g 30' '30 PRINT "A=",A'
    asks 'v A' A=7
    asks n $'| A=      7\n40 INPUT B'
    asks o '| A=      7'
    asks 'l 10' $'  10 LET A=1\n  20 GOSUB 100\n  30 PRINT "A=",A\n\\* 40 INPUT B\n  50 PRINT A\\*B\n  60 END'
    asks c $'| \\? \nwaits'
    asks 'k 6' typed
    asks n $'*50 PRINT A\\*B'
    asks v $'A=7\nB=6'
    asks n $'| 42\n60 END'
    asks n returned
    asks p '60 END'
    asks 'p 2' '40 INPUT B'
    again '110 RETURN'
    asks 'n 2' $'| A=      7\n40 INPUT B'
    again '*60 END'
    asks 'p 2' '40 INPUT B'
    asks f 'stops at faults'
    asks f 'goes through faults'
    asks x '???? A=?? X=?? Y=?? S=?? P=?? 40 running'
    asks 'm 0801 4' '0801 0B 08 0A 00'
    asks 'm 0000 1' '0000 --'
    asks i $'*; ????'
    asks 's 2' '40 INPUT B'
    asks 'b 31' 'no such line'
    asks 'g 31' 'no such line'
    asks 't 1' '20 GOSUB 100'
    asks j '30 PRINT "A=",A'
    asks p '110 RETURN'
    asks u '30 PRINT "A=",A'
    asks z 'what\? (h lists the commands)'
    asks 'e 1+' 'what\? (h lists the commands)'
    at_terminal "${TALK[@]}" '> ' q
    row 0 '' "$SHOWN> q" debug walk.bas
    by=()
}
debug_walk

frames() { # CONTENT..: the messages, each in a frame
    local it
    for it; do printf 'Content-Length: %d\r\n\r\n%s' "${#it}" "$it"; done >messages
}

server_rows() {
    local at='"textDocument":{"uri":"file:///a.bas","languageId":"tinybasic"' end='{"jsonrpc":"2.0","method":"exit"}'
    from=messages
    frames
    row 1 '' '' lsp
    frames '{"jsonrpc":"2.0","id":7,"method":"shutdown"}' "$end"
    row 1 '' $'Content-Length: 76\r\n\r\n{"error":{"code":-32002,"message":"not initialized"},"id":7,"jsonrpc":"2.0"}' lsp
    frames '{' '{"jsonrpc":"2.0"}'
    row 1 '' '*{"error":{"code":-32700,"message":"no JSON"},"id":null,*{"error":{"code":-32600,"message":"no message"},"id":null,*' lsp
    frames '{"jsonrpc":"2.0","id":1,"method":"initialize","params":{}}' \
        '{"jsonrpc":"2.0","method":"textDocument/didOpen","params":{'"$at"',"version":3,"text":"10 PRIMT\n"}}}' \
        '{"jsonrpc":"2.0","id":"two","method":"shutdown"}' "$end"
    row 0 '' '*"serverInfo":{"name":"tbc",*"message":"syntax: did you mean PRINT","range":*"version":3}}*"id":"two","jsonrpc":"2.0","result":null}' lsp
    file messages 'Content-Length: x\r\n\r\n'
    row 3 'tbc: bad frame' '' lsp
    file messages 'Content-Length: 9\r\n\r\n{}'
    row 3 'tbc: bad frame' '' lsp
    to=/dev/full
    frames '{"jsonrpc":"2.0","id":7,"method":"shutdown"}'
    row 3 'tbc: write fault' '' lsp
    to=shown
    from=/
    row 3 'tbc: read fault' '' lsp
    from=/dev/null
    row 2 'error: *' '' lsp WORD
}
server_rows

adapter_rows() {
    local end='{"seq":9,"type":"request","command":"disconnect"}' ended='"command":"disconnect","request_seq":9,"seq":'
    from=messages
    frames
    row 0 '' '' dap
    frames '{"seq":7,"type":"request","command":"threads"}' "$end"
    row 0 '' '*"message":"not initialized","request_seq":7,"seq":1,"success":false,*'"$ended"'2,"success":true,"type":"response"}' dap
    frames '{' '{"seq":1}' '{"seq":1,"type":"event"}'
    row 0 '' '*"output":"tbc: no JSON*"seq":1,*"output":"tbc: no message*"seq":2,*' dap
    file walk.bas '10 INPUT A\n20 PRINT A+1\n'
    frames '{"seq":1,"type":"request","command":"initialize"}' \
        '{"seq":2,"type":"request","command":"launch","arguments":{"program":"nowhere.bas"}}' \
        '{"seq":3,"type":"request","command":"launch","arguments":{"program":"walk.bas"}}' \
        '{"seq":4,"type":"request","command":"configurationDone"}' \
        '{"seq":5,"type":"request","command":"evaluate","arguments":{"expression":">41","context":"repl"}}' "$end"
    row 0 '' '*"message":"read fault","request_seq":2,*"event":"initialized",*"reason":"input",*"output":*42*"reason":"end",*'"$ended"'*' dap
    frames '{"seq":1,"type":"request","command":"initialize"}' '{"seq":2,"type":"request","command":"launch","arguments":{"program":"-"}}'
    row 0 '' '*"message":"bad arguments","request_seq":2,*' dap
    file messages 'Content-Length: 9\r\n\r\n{}'
    row 3 'tbc: bad frame' '' dap
    to=/dev/full
    frames "$end"
    row 3 'tbc: write fault' '' dap
    to=shown
    from=/
    row 3 'tbc: read fault' '' dap
    from=/dev/null
    row 2 'error: *' '' dap WORD
}
adapter_rows
