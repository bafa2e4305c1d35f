#!/usr/bin/env bash
# Tries `dis --for` and `build --list --for` as a user does: each text, and each refusal. That other assemblers make the
# same files of the listings is what tools/try/assemblers.sh tries. Prints what differs, and then ends with status 1.
. "$(dirname "${BASH_SOURCE[0]}")/../setup.sh"
needs_program

rows=0
failed=0
from=/dev/null
row() { # STATUS SAID SHOWN WORD..: SAID and SHOWN are patterns of standard error and output, without the last line end
    local status=0 wanted=$1 said=$2 shown=$3
    shift 3
    rows=$((rows + 1))
    "$tbc" "$@" <"$from" >shown 2>said || status=$?
    [[ $status == "$wanted" && $(<said) == $said && $(<shown) == $shown ]] && return
    failed=$((failed + 1))
    printf 'tbc %s\n  status %s, wanted %s\n  said %q, wanted %q\n  shown %q, wanted %q\n' \
        "$*" "$status" "$wanted" "$(<said)" "$said" "$(<shown)" "$shown"
}
so() { # OTHERWISE WORD..: a row: says OTHERWISE if WORD.. fails
    local otherwise=$1
    shift
    rows=$((rows + 1))
    "$@" && return
    failed=$((failed + 1))
    echo "$otherwise"
}

# A routine at $C000, of which each assembler spells something in another way
printf '\000\300\012\255\022\000\002\360\371\114\322\377' >routine.prg
code=$'AT%sC000:\n  ASL%s ; C000\n  LDA%s$0012 ; C001\n  %s $02 ; C004\n  BEQ AT%sC000 ; C005\n  JMP CHROUT ; C007'
listing() { # HEAD ACCUMULATOR FORCED BYTE: the listing of that routine
    # shellcheck disable=SC2059 # the listing is the format
    printf "%s\nCHROUT = \$FFD2\n%s\n$code" "$1" "$5" '' "$2" "$3" "$4" ''
}
load=$'  .word $C000 ; the load address\n'
row 0 '' "$(listing '; 64tass -o OUT.prg IN' ' A' ' @w ' .byte '\* = $C000')" dis routine.prg --for 64tass
row 0 '' "$(listing '; ca65 -o IN.o IN && ld65 -t none -o OUT.prg IN.o' ' A' ' a:' .byte "$load  .org \$C000")" dis --for=ca65 routine.prg
row 0 '' "$(listing '; acme -f cbm -o OUT.prg IN' '' '+2 ' '!byte' '\* = $C000')" dis routine.prg --for acme
row 0 '' "$(listing '; xa -o OUT.prg IN' '' ' !' .byte "$load\\* = \$C000")" dis routine.prg --for xa
row 0 '' $'ASL A ; C000\nLDA $0012 ; C001\n.byte $02 ; C004\nBEQ $C000 ; C005\nJMP $FFD2 ; C007' dis routine.prg
from=routine.prg
row 0 '' $'; acme *\nCHROUT = $FFD2\n\\* = $C000\nATC000:\n*JMP CHROUT ; C007' dis - --for acme
from=/dev/null

# A BASIC line stands as bytes, but only with --for
printf '\001\010\013\010\012\000\236\062\060\066\061\000\000\000\140' >line.prg
row 0 '' $'*\n\\* = $0801\n  .byte $0B,$08,$0A,$00,$9E,$32,$30,$36,$31,$00,$00,$00 ; 0801 the BASIC line\n  RTS ; 080D' dis line.prg --for 64tass
row 0 '' $'.byte $0B ; 0801\nPHP ; 0802\nASL A ; 0803\nBRK ; 0804\n*RTS ; 080D' dis line.prg

# A listing of a build: the same rows as without --for, and the same PRG file
printf '10 REM A/*B:C\\\n20 PRINT "HI"\n30 GOTO 20\n' >hi.bas
row 0 '' '' build hi.bas plain.prg --list plain.s
for assembler in 64tass ca65 acme xa; do
    row 0 '' '' build hi.bas hi.prg --list hi.s --for $assembler
    so 'with --for the PRG file is another one' cmp -s hi.prg plain.prg
    so "the listing for $assembler has other labels" \
        cmp -s <(grep -o '^[A-Za-z_0-9]*:' hi.s | tr a-z A-Z) <(grep -o '^[A-Za-z_0-9]*:' plain.s | tr a-z A-Z)
    so "the listing for $assembler lacks the BASIC line" grep -q '^  .byte $0B,$08,.* ; 0801 the BASIC line$' hi.s
    so "the listing for $assembler lacks the source" grep -q '^; 20 PRINT "HI"$' hi.s
done
so 'the comment is no comment for xa' grep -q -x -F '; 10 REM A/ *B?C?' hi.s
"$tbc" build hi.bas hi.prg --list hi.s --for acme
so 'the comment is another one for ACME' grep -q -x -F '; 10 REM A/*B:C\' hi.s
so 'a word is another one for ACME' grep -q '^  !word LINE10 ; ' hi.s

# What is refused
row 1 'tbc: not a PRG: too short' '' dis --for xa /dev/null
row 0 '' '; xa -o OUT.prg IN*' dis hi.bas --for xa # as without --for: two bytes are an address, and the others are listed
row 3 'tbc: read fault' '' dis nowhere.prg --for xa
row 2 $'error: invalid value \'tass\' for \'--for <ASSEMBLER>\'\n  [[]possible values: 64tass, ca65, acme, xa[]]*' '' dis line.prg --for tass
row 2 'error: a value is required*' '' dis line.prg --for
row 2 'error: the following required arguments were not provided*--list <FILE>*' '' build hi.bas out.prg --for xa
so 'a file was written' test ! -e out.prg
printf '10 PRIMT\n' >bad.bas
row 1 'tbc: 1:7: syntax' '' build bad.bas out.prg --list out.s --for xa
so 'a file was written' test ! -e out.s

echo "$rows rows of listings for other assemblers, $failed failed"
[ "$failed" = 0 ]
