# shellcheck shell=bash
# Programs of this project in sim65 (of cc65), for scripts of tools/. To be sourced after setup.sh.

zeros() { head -c "$1" /dev/zero; }

# A program for sim65 from a PRG file: its mark, version 2, a 6502, stack pointer at 0, load address $0801, start $A000.
# At $A000 are JSR $080D, LDA #0, JMP to sim65's exit; at $A010 LDX $A004, LDA $A100,X, INC $A004, RTS; at $A100 the
# keys, at most 255. At $FFCF is JMP $A010, at $FFD2 RTS, at $FFE4 LDA #0, RTS. So the exit status is how many keys were
# read.
image() { # PRG KEYS; keys as for printf
    printf 'sim65\002\000\000\001\010\000\240'
    tail -c +3 "$1"
    zeros $((0xa000 - 0x0801 - $(wc -c <"$1") + 2))
    printf '\040\015\010\251\000\114\371\377'
    zeros $((0xa010 - 0xa008))
    printf '\256\004\240\275\000\241\356\004\240\140'
    zeros $((0xa100 - 0xa01a))
    printf "$2"
    zeros $((0xffcf - 0xa100 - $(printf "$2" | wc -c)))
    printf '\114\020\240\140'
    zeros $((0xffe4 - 0xffd3))
    printf '\251\000\140'
}

counts() { # IMAGE: its cycles and its exit status
    local status=0
    sim65 -c "$1" >counted 2>&1 || status=$?
    echo "$(awk '/cycles/ { print $1 }' counted) $status"
}
