#!/usr/bin/env bash
# A second opinion on the whole processor: every documented opcode, with operand bytes, registers and memory at the
# edges, in every mode and with both settings of each flag, here, in sim65 (of cc65) and in VICE
# (foreign/opcode_programs.py). Without VICE its part is left out, and that is said.
#
#   tools/try/processor.sh
. "$(dirname "${BASH_SOURCE[0]}")/../setup.sh"
needs_program
needs python3
installs sim65 cc65
foreign=$root/tools/try/foreign
"$tbc" asm "$foreign/opcodes.asm" opcodes.prg --at 080D
"$tbc" asm "$foreign/sim65.asm" sim65.prg --at A000
vice=-
if finds_vice; then
    vice=vice.prg
    "$tbc" asm "$foreign/kernal.asm" "$vice" --at E000
else
    echo "x64sc is not there: the runs in VICE are left out"
fi
python3 -B "$foreign/opcode_programs.py" "$tbc" opcodes.prg sim65.prg "$vice"
