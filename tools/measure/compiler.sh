#!/usr/bin/env bash
# Measures `tbc build` and `cc65 -O -t c64` of Debian's cc65 on the same statements, each from the start of its
# process to its end, and prints the processor time of both, and what part of cc65's time tbc takes.
#
#   tools/measure/compiler.sh [ROUNDS]          default: 40 rounds; needs cc65
#   tools/measure/compiler.sh --instructions    instructions of this processor in place of time; needs valgrind too; ends
#                                               with status 1 if sources that compile take more than they should: 200
#                                               mixed lines 2.7 million, 1,000 of PRINT and REM 7.5 million
#
# 200 mixed lines are about the most that a program may cost. With 1,000 such lines tbc does everything but lay the
# code, and then refuses them as too large; 1,000 lines of PRINT and REM compile. cc65's time for a function grows
# faster than its length, so its statements are tried with ten in each function, and with all in one. With --fit, 912
# lines whose jumps are all far fill the memory; a half and a quarter of them show how the time grows.
. "$(dirname "${BASH_SOURCE[0]}")/../setup.sh"
needs_program
installs cc65 cc65

write_mixed() { # NAME LINES EACH: NAME.bas, and NAME.c with EACH lines in each function
    awk -v name="$1" -v lines="$2" -v each="$3" '
    function basic(text) { print number, text > (name ".bas"); number += 10 }
    function c(text) { print text > (name ".c") }
    BEGIN {
        number = 10
        c("int a, i, s, t;\nvoid text(const char *);\nvoid number(int);\nvoid zone(void);\nvoid newline(void);")
        c("void sub(void) { t = t + 1; }")
        for (line = 0; line < lines; line += 10) {
            at = number
            if (line % each == 0) c("void part" line "(void) {")
            basic("LET A=A+1");              c("a = a + 1;")
            basic("PRINT \"LINE \";A");      c("text(\"LINE \"); number(a); newline();")
            basic("IF A<100 GOTO " at + 40); c("if (a < 100) goto l" at + 40 ";")
            basic("GOSUB 30000");            c("sub();")
            basic("I=1");                    c("l" at + 40 ": i = 1;")
            basic("S=S+I");                  c("l" at + 50 ": s = s + i;")
            basic("I=I+1");                  c("i = i + 1;")
            basic("IF I<=10 GOTO " at + 50); c("if (i <= 10) goto l" at + 50 ";")
            basic("PRINT S,A");              c("number(s); zone(); number(a); newline();")
            basic("GOTO " at + 100);         c("goto l" at + 100 ";\nl" at + 100 ": ;")
            if ((line + 10) % each == 0) c("}")
        }
        basic("END")
        number = 30000
        basic("T=T+1")
        basic("RETURN")
    }'
}

write_cheap() { # NAME LINES
    awk -v name="$1" -v lines="$2" 'BEGIN {
        print "void newline(void);" > (name ".c")
        for (line = 1; line <= lines; line++) {
            if (line % 10 == 1) print "void part" line "(void) {" > (name ".c")
            print line, line % 2 ? "PRINT" : "REM nothing to do here" > (name ".bas")
            print line % 2 ? "newline();" : "; /* nothing to do here */" > (name ".c")
            if (line % 10 == 0) print "}" > (name ".c")
        }
    }'
}

write_mixed mixed200 200 10
write_mixed joint200 200 200
write_mixed mixed1000 1000 10
write_mixed joint1000 1000 1000
write_cheap cheap1000 1000

rounds=${1:-40}
unit=ms
if [ "$rounds" = --instructions ]; then
    installs valgrind valgrind
    unit=million
fi
cost() { # WORD..
    if [ "$unit" = ms ]; then processor_time "$rounds" "$@"; else counted "$@" | awk '{ print $1 / 1e6 }'; fi
}

failed=0
measure() { # NAME STATUS WHAT [MOST]: of instructions, in millions
    local status=0 own
    "$tbc" build "$1.bas" made.prg 2>said || status=$?
    [ "$status" = "$2" ] || { echo "tbc build $1.bas: status $status, $(cat said)" >&2; exit 1; }
    own=$(cost "$tbc" build "$1.bas" made.prg)
    awk -v a="$own" -v b="$(cost cc65 -O -t c64 "$1.c" -o made.s)" \
        -v start="$start" -v cc65_start="$cc65_start" -v what="$3" -v unit="$unit" \
        'BEGIN { printf "%s: tbc %.2f %s, cc65 %.2f %s, 1/%.1f; without the start of the process 1/%.1f\n",
            what, a, unit, b, unit, b / a, (b - cc65_start) / (a - start) }'
    judge "$1.bas" "$own" "${4:-$own}"
}

judge() { # FILE INSTRUCTIONS MOST
    if [ "$unit" = million ] && awk -v own="$2" -v most="$3" 'BEGIN { exit !(own > most) }'; then
        echo "$1: $2 million instructions, and should take $3 at most" >&2
        failed=1
    fi
}

measure_fit() { # LINES [MOST]: lines whose jumps are all far
    local own
    awk -v lines="$1" 'BEGIN { for (n = 1; n <= lines; n++) print n, "IF A=" n " GOTO " (2 * n > lines ? 1 : lines) }' >far.bas
    "$tbc" build --fit far.bas made.prg
    own=$(cost "$tbc" build --fit far.bas made.prg)
    echo "$1 lines whose jumps are all far, a PRG of $(wc -c <made.prg) bytes: tbc $own $unit"
    judge far.bas "$own" "${2:-$own}"
}

start=$(cost "$tbc" --version)
cc65_start=$(cost cc65 --version)
echo "the start of a process: tbc $start $unit, cc65 $cc65_start $unit"
measure mixed200 0 "200 mixed lines, ten in a function" 2.7
measure joint200 0 "200 mixed lines, in one function"
measure cheap1000 0 "1,000 lines of PRINT and REM" 7.5
measure mixed1000 1 "1,000 mixed lines, ten in a function, refused"
measure joint1000 1 "1,000 mixed lines, in one function, refused"
measure_fit 228
measure_fit 456
measure_fit 912 60
exit "$failed"
