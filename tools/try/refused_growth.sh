#!/usr/bin/env bash
# Runs each command of the built program with the first, the second, .. growth of its memory refused, until a run meets
# no refusal; of a large program, with each hundredth or so (tools/try/refuse_each.py).
#
# Each run must end in one of two ways. Either it answers exactly what the command answers with ample memory. Or it ends
# with status 4, `tbc: out of memory` and nothing written; but a program that is played, tested, debugged or profiled may have
# shown its warnings and a prefix of its text, a check or a server a prefix of what it says, and a build of several files
# may have written some of them whole. If no growth was refused, a run must not run out of memory.
#
# The same holds for the calls that no command makes or shows, each a name after `tb_tools_bench call`. The refusing
# malloc is preloaded, so this needs a C compiler (cc) and glibc.
#
#   tools/try/refused_growth.sh [PART OF]     (each OF-th command alone, from the PARTth on: parts can run side by side)
part=${1:-1}
parts=${2:-1}
. "$(dirname "${BASH_SOURCE[0]}")/../setup.sh"
needs_program
trials=$root/crates/tb_tools_bench/out/tb_tools_bench
[ -x "$trials" ] || { echo "build the trials first: cd crates/tb_tools_bench && rt run <stdin" >&2; exit 1; }
needs cc python3
with_step=yes

cc -shared -fPIC -O1 -fno-builtin -o refuse.so -x c - <<'C'
/* Refuses the growth whose number REFUSE gives, counted from 1, and notes on descriptor 9 that it came. Standard output
   counts as a terminal if TERMINAL says so. */
extern void *__libc_malloc(unsigned long);
extern void *__libc_calloc(unsigned long, unsigned long);
extern void *__libc_realloc(void *, unsigned long);
extern char *getenv(const char *);
extern long atol(const char *);
extern long write(int, const void *, unsigned long);

static long left = -1;

static int refuses(void) {
    if (left < 0) {
        const char *n = getenv("REFUSE");
        left = n ? atol(n) : 0;
    }
    if (left == 0 || --left != 0)
        return 0;
    return write(9, "refused\n", 8) > 0;
}

int isatty(int descriptor) { return descriptor == 1 && getenv("TERMINAL"); }
void *malloc(unsigned long n) { return refuses() ? 0 : __libc_malloc(n); }
void *calloc(unsigned long n, unsigned long m) { return refuses() ? 0 : __libc_calloc(n, m); }
void *realloc(void *p, unsigned long n) { return refuses() ? 0 : __libc_realloc(p, n); }
C

found=0
rows=0
failed=0
stride=1 # from one growth that is refused to the next
: >runs
refuse_each() { # PROGRAM WORD..: what it answers, with each growth refused in turn
    rows=$((rows + 1))
    "$root/tools/try/refuse_each.py" $stride "$@" || failed=$((failed + 1))
}

is_of_this_part() { # whether the command that is now found is
    found=$((found + 1))
    ((found % parts == part % parts))
}

check() { # WORD..: a command of the program
    ! is_of_this_part || refuse_each "$tbc" "$@"
}

check_shown() { # WORD..: the same, at a terminal
    TERMINAL=yes COLUMNS=80 LINES=25 check "$@"
}

check_call() { # NAME: a call, whose answer is a text
    is_of_this_part || return 0
    refuse_each "$trials" call "$1"
    [ -s shown.wanted ] || { echo "tb_tools_bench call $1: no answer" >&2; failed=$((failed + 1)); }
}

: >commands
printf '\001\010\013\010\012\000\2362061\000\000\000\251H\040\322\377\251\015\040\322\377\140' >hello.prg
printf '\000\300\251\005\215\040\320\140' >wrong.prg
printf '\000\300\255\022\000\377\154\377\022\251' >mixed.prg
printf 'LDA #$05 ; C000\nSTA $D020 ; C002\nRTS ; C005\n' >wrong.s
printf 'LDA $0012 ; C000\n.byte $FF ; C003\n.byte $6C ; C004\n.byte $FF ; C005\n.byte $12 ; C006\n.byte $A9 ; C007\n' >mixed.s
printf '\000\300\040\317\377\040\322\377\114\000\300' >echo.prg
printf 'L:\nLDA #<L\nBNE L\nJSR $FFD2\n.word L ; end\n.byte $01,$02\n' >text.s
printf 'LDA #5\n' >bad.s
printf 'JMP M\n' >unknown.s
printf '10 PRINT "HELLO"\n20 END\n' >hello.bas
printf '10 A=4\n20 GOTO 10*A\n30 PRINT "NO"\n40 END\n' >there.bas
printf '10 A=5\n20 GOTO 10*A\n30 PRINT "NO"\n40 END\n' >astray.bas
printf '10 A=4\n20 GOTO 10-20\n30 PRINT "NO"\n40 END\n' >below.bas
printf '10 GOTO 99\n' >warned.bas
printf '10 A=5\n20 END\n' >let.bas
printf '10 REM ALL\n20 INPUT A,B\n30 LET C=-A*(B+2)/3\n40 IF C<=A THEN GOSUB 80\n50 IF A<>B PR "X",C;RND(6)\n60 GOTO 90\n80 RETURN\n90 GOTO 95\n' >all.bas
printf '10 PRINT 1\n20 PRINT (1\n' >bad.bas
printf '10 A=1+(1+(1+(1+(1+(1+(1+(1+(1+(1+(1+(1+(1+(1+(1+(1+1)))))))))))))))\n' >deep.bas
seq -f "%g $(printf 'IFA=A%.0s' {1..49})END" 5 >large.bas
printf '10\n' >empty.bas

check build hello.bas out.prg
check build all.bas out.prg --seed 7
check build all.bas out.prg --labels beside.vs --list beside.s --map beside.map
check build hello.bas out.prg --watch beside.watch
check build hello.bas hello.bas
check build hello.bas out.prg --map ./out.prg
check build hello.bas there.bas
check build hello.bas -o -
check build bad.bas out.prg
check build deep.bas out.prg
check build large.bas out.prg
check build large.bas out.prg --fit
check build empty.bas out.prg
check build nowhere.bas out.prg
check build hello.bas nowhere/out.prg
check run hello.bas
check run there.bas
check run astray.bas
check run below.bas
check run below.bas --strict
check play below.bas --strict
check run warned.bas
check run large.bas --fit
check run all.bas --keys 332c350d --rude 1
check run all.bas --keys 332c350d --limit 900
check run all.bas --keys 33
check run all.bas --keys 58
check run hello.bas --answers 03
check run bad.bas
check run nowhere.bas
printf '10 PRINT "{clr}{3 down}[{C1}]"\n20 INPUT A\n30 PRINT "{red}";A\n40 END\n' >signs.bas
printf '10 PRINT "{cls}"\n20 PRINT "A{dwon}"\n30 PRINT "{!}"\n' >near.bas
check run signs.bas --petscii --keys 330d
check build signs.bas out.prg --petscii --labels beside.vs --list beside.s --map beside.map
check build near.bas out.prg --petscii
check check near.bas --petscii
check profile signs.bas --petscii --keys 330d
check run --prg hello.prg
check run --prg hello.prg --rude 1
check run --prg wrong.prg
check run --prg mixed.prg
check run --prg echo.prg --keys 3132330d
check run --prg nowhere.prg
check run --prg hello.prg --keys 0
check run --prg hello.prg --limit 0
printf 'al C:0801 .first\nal c000 .text\n' >some.labels
check run --prg wrong.prg --labels some.labels
check run --prg hello.prg --labels bad.s
check dis hello.prg
check dis wrong.prg
check dis mixed.prg
check dis bad.s
check dis mixed.prg --for 64tass
check dis echo.prg --for xa
check dis bad.s --for acme
check build bad.bas out.prg --list beside.s --for ca65
check asm text.s out.prg --at c000
check asm wrong.s out.prg --at c000
check asm mixed.s out.prg --at c000
check asm bad.s out.prg --at c000
check asm unknown.s out.prg --at c000
check asm text.s out.prg --at c00
printf 'chrout = $ffd2\nloop lda text\n@a jsr chrout\n bne @a\n .include "more.asm"\ntext .text "hi",13\n .align 16\n' >people.asm
printf ' .fill 3,loop&255\n' >more.asm
printf ' lda nowhere\nnowhen = 1\n ldx #256\n' >meaning.asm
printf ' lda #\n .include "none.asm"\n' >lines.asm
check assemble people.asm out.prg --labels beside.lab --list beside.lst
check assemble meaning.asm out.prg
check assemble lines.asm out.prg
check assemble nowhere.asm out.prg
check assemble people.asm more.asm
check assemble people.asm text.s
printf ' .bite 1\n' >directive.asm
check assemble directive.asm out.prg
printf ' bne far\n .fill 130\nfar rts\n' >far.asm
check assemble far.asm out.prg --long
printf '310d3\n' >bad.keys
printf '332c350d\r\n' >some.keys
check run all.bas --keys-file some.keys
check run all.bas --keys-file bad.keys
check run all.bas --keys-file nowhere.keys
printf 'x\n' >commands
check play all.bas --record out.prg
printf '3,5\r\n' >commands
check play all.bas --record out.prg
check play all.bas --limit 900
check play hello.bas --record nowhere/out.prg
check play bad.bas
check play nowhere.bas
printf '123\nabc\n\nz' >commands
check play --prg echo.prg --record out.prg
check play --screen --prg echo.prg
check_shown play --screen --prg echo.prg --record out.prg
check_shown play --screen all.bas
check_shown play --screen --prg wrong.prg
check play --prg wrong.prg
check play --prg nowhere.prg
: >commands
cp hello.prg maze_1.prg
printf '\001' >short.prg
printf '\000\320\140' >high.prg
printf 'HELLO\n' >hello.transcript
printf '# seed 7\n# rude 7\n# fit\n? \n> 3,\n' >all.transcript
printf '# sede 7\n' >bad.transcript
mkdir -p games/deep
cp hello.bas games/deep/x.bas
printf 'HALLO\n' >games/deep/x.1.transcript
cp hello.transcript games/deep/x.transcript
check test hello.bas
check test all.bas
check test bad.transcript nowhere.bas
check test games --lines --html page.html
check test games hello.bas --format tap --lines
check test hello.transcript --update
printf '1\n2\n' >commands
check play all.bas --transcript beside.transcript --seed 7
: >commands
check disk beside.d64 hello.prg maze_1.prg
check disk beside.d64 hello.prg hello.prg
check disk beside.d64 hello.prg bad+.prg
check disk beside.d64 short.prg
check disk beside.d64 nowhere.prg
check disk nowhere/out.d64 hello.prg
check disk out.prg hello.prg
check disk beside.d64 hello.bas
check disk beside.d64 high.prg
check disk
check format all.bas
check format all.bas --check
check format bad.bas
check format hello.bas --in-place
check format nowhere.bas --in-place
check renumber hello.bas
check renumber bad.bas
check renumber hello.bas --in-place
check renumber nowhere.bas --in-place
check format signs.bas --petscii
check renumber signs.bas --petscii
while IFS= read -r content; do
    printf 'Content-Length: %d\r\n\r\n%s' "$(printf %s "$content" | wc -c)" "$content"
done <"$root/tools/try/clients/dialogue.jsonl" >commands
check lsp
check lsp --petscii
while IFS= read -r content; do
    content=${content//SOURCE/all.bas}
    printf 'Content-Length: %d\r\n\r\n%s' "$(printf %s "$content" | wc -c)" "$content"
done <"$root/tools/try/clients/adapter.jsonl" >commands
check dap
check dap --petscii
: >commands
printf '10 FOR I=1 TO 10\n20 PRIMT "X"\n30 PRINT "Y\nEND\n' >slips.bas
printf '10 PRINT RND(6)\n20 IF A=1 GOTO 99\n10 REM\n' >dice.bas
check check hello.bas
check check slips.bas
check check dice.bas
check check deep.bas
check check large.bas
check check empty.bas
check check slips.bas nowhere.bas dice.bas
check check slips.bas dice.bas deep.bas large.bas
check check
check profile all.bas --keys 332c350d0d --rude 7
check profile hello.bas --html page.html
check profile all.bas --keys 332c350d0d --answers 0000 --rude 7 --fit --html page.html
check profile warned.bas
check profile bad.bas
check profile nowhere.bas
check profile --prg hello.prg
check page hello.bas page.html
check page all.bas page.html --fit --title '<A>'
check page bad.bas
check page nowhere.bas
check page --prg hello.prg page.html
printf 'n 3\np\n\nb 30\nb\nw A\nf\nc\nrc\nt 9\nt 2\nl\nv\nv A\ne A*2-1\nr\no\nk 7,8\nc\ns 9\nx\nm C000\ni\nh\nz\nq\n' >commands
check debug all.bas
check debug all.bas --keys 332c350d --rude 7
check debug bad.bas
check debug nowhere.bas
printf '10 A=0\n20 PRINT 1/A\n' >fault.bas
printf 'f\nc\nv\nc\nf\nq\n' >commands
check debug fault.bas
check debug signs.bas --petscii --keys 330d
printf 'n 3\np\nb $C002\nb\nc\nrc\nt 2\nv\no\nk A\ns 9\nx\ni\nq\n' >commands
check debug --prg hello.prg
check debug --prg hello.prg --labels some.labels
check debug --prg nowhere.prg
: >commands
check --version
check --help
check run --help
check

check check large.bas --fit

# A large program has so many growths that only some are refused in turn, far enough apart to hit each part.
large=$root/examples/startrek.bas
stride=101
check build "$large" out.prg --fit
check build "$large" out.prg --fit --labels beside.vs --list beside.s --map beside.map
check build "$large" out.prg --map beside.map
check dis hello.prg --for ca65
check build hello.bas out.prg --list beside.s --for acme
check check "$large" --fit
printf '0d' >long.keys
check run "$large" --fit --keys-file long.keys
stride=1

step_rows() {
    printf 's\nb\nb\ng 30\nv A\ne A*2-1\ne 1/0\ne RND(2)\ne A+\nx\nd\ng 20\nq\n' >commands
    check step all.bas --keys 332c350d
    printf 'b\ns\nb\ng 15\ng 20\nv A\ne A*2-1\ne 1/0\ne RND(2)\nx\nq\n' >commands
    check step let.bas
    check step --prg hello.prg
    check step hello.bas --limit 3
    check step bad.bas
    check step nowhere.bas
    check step hello.bas --keys 0
}
[ $with_step = no ] || step_rows

: >commands
for call in host_form key_list compile make bad_lines parse parse_expr tokens lower warnings assemble settle assemble_settled read_text write \
    disassemble Listing::text disk Memory::new reserve type_text run Stepper::new step to_line; do
    check_call $call
done

echo "$rows commands and calls, $(awk '{ sum += $1 } END { print sum + 0 }' runs) runs, $failed commands with another answer"
[ "$failed" = 0 ]
