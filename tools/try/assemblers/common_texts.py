"""Texts in the common ground of 64tass, ca65 and ACME, for `assemblers.sh`: FOLDER. Writes each as NAME.64tass.s,
NAME.ca65.s and NAME.acme.s, where only the words of directives and the marks of local names differ, and prints the names."""
import re
import sys
from pathlib import Path

# The words below in each assembler's own spelling. SKIP goes on at an address, over bytes 0.
SPELLINGS = {
    "64tass": {"ORG": "* =", "SKIP": "* = {}", "BYTE": ".byte", "WORD": ".word", "TEXT": ".text", "FILL": ".fill", "@": "_"},
    "ca65": {"ORG": ".org", "SKIP": ".res {}-*, 0", "BYTE": ".byte", "WORD": ".word", "TEXT": ".byte", "FILL": ".res", "@": "@"},
    "acme": {"ORG": "* =", "SKIP": "* = {}", "BYTE": "!byte", "WORD": "!word", "TEXT": "!text", "FILL": "!fill", "@": "@"},
}

# Mnemonics by their modes, and operands of each mode.
MODES = """lda adc and cmp eor ora sbc: imm zp zpx abs absx absy indx indy
sta: zp zpx abs absx absy indx indy
asl lsr rol ror: acc zp zpx abs absx
inc dec: zp zpx abs absx
ldx: imm zp zpy abs absy
ldy: imm zp zpx abs absx
stx: zp zpy abs
sty: zp zpx abs
cpx cpy: imm zp abs
bit: zp abs
jmp: abs ind
jsr: abs
bcc bcs beq bmi bne bpl bvc bvs: rel"""
OPERANDS = {
    "imm": "#$12|#255|#%00010101|#'A'|#<data|#>data|#count|#count*2+1",
    "zp": "$12|zero|zero+1|200",
    "zpx": "$12,x|zero,X|zero+2,x",
    "zpy": "$12,y|zero,Y",
    "abs": "$1234|data|data+1|here|4096",
    "absx": "$1234,x|data,X|data+count,x|zero+count,x",
    "absy": "$1234,y|data-1,Y",
    "indx": "($12,x)|(zero,X)|(zero+1,x)",
    "indy": "($12),y|(zero),Y|(zero+1),y",
    "ind": "($1234)|(data)|(data+2)",
    "acc": "",
    "rel": "here|next|*+2|here+1",
}
IMPLIED = "brk clc cld cli clv dex dey inx iny nop pha php pla plp rti rts sec sed sei tax tay tsx txa txs tya"

# Expressions of 0 to 65,535.
EXPRESSIONS = """0|65535|$ffff|$AbCd|%1111000011110000|'A'|1+2|9-4|6*7|7/2|100-10-1|100/5/2|2*3+4*5|2+3*4|20-6/2|(2+3)*4|2*(3+4)
(1<<4)+1|1<<(4+1)|(255>>1)&15|($f0&$3c)|(1|64)|($ff00>>8)|($12345678>>16)|((1+2)*(3+4))|-1+5|-(3)+10|10-(-2)|count|count*count
later|later/2+1|data|data+1|data-here|(data-here)*2|next-here|here+count*2|<$1234|>$1234|<(data+1)|>(data+255)|(data)&255|((data)>>8)
*|*+2|*-here|1000000/1000|(70000-4465)|65536/2-1|((((7))))|count+later-1""".replace("\n", "|")

# Lines after `here`, one text each; ` / ` ends a line.
LINES = """BYTE 1
BYTE 0,255,$80,%00000001,'A'
BYTE <data,>data / BYTE <(data+1),>(data+1)
BYTE count,later,count+later
TEXT "HELLO"
BYTE "A",1,"B",2
TEXT "SEMI;COLON" ; and a comment
TEXT "3 SPACES   "
TEXT "UPPER 123 !?"
TEXT "X" / TEXT "(*+,-./)"
WORD 1
WORD 0,65535,$1234,data,here
WORD data+1,data-1
WORD next,here,next-here
WORD *
nop / FILL 5
FILL 5,1
FILL 3,$ff / BYTE 1
FILL count,zero-1
FILL count*2+1,'X'
FILL 0 / BYTE 7
nop / SKIP $c020 / BYTE 1
nop / SKIP here+16 / nop / SKIP here+32 / rts
one = 1 / two = one+1 / lda #two
lda #below / below = 9
high = $d020 / sta high / low = $20 / sta low
step = count / FILL step,step
end = * / lda end / jmp end
start: lda #0 / jmp start
start: / jmp start
start: lda data,x / beq end / jsr $ffd2 / inx / bne start / end: rts
jmp after / BYTE 1,2,3 / after: rts
ldx #5 / @loop: dex / bne @loop / rts
ldx #5 / @loop: dex / bne @loop / other: ldy #3 / @loop: dey / bne @loop / rts
beq @skip / inc zero / @skip: rts / again: beq @skip / dec zero / @skip: rts
name_1 = 1 / Name2 = 2 / nAME_three = 3 / BYTE name_1,Name2,nAME_three
a_very_long_name_that_is_not_cut_after_thirty_one_letters = 77 / BYTE a_very_long_name_that_is_not_cut_after_thirty_one_letters
lda #<data / sta zero / lda #>data / sta zero+1 / ldy #0 / lda (zero),y / rts
lda #<(data+count) / ldx #>(data+count) / rts
lda #(1<<3)+1 / and #%00001111 / ora #$80
lda data+1 / sta data / ldx data+2,y
LDA #$01 / STA $D020 / RTS
	lda	#1	; tabs / 	sta	$d020,x
lda   #  1 / sta $d020 , x / lda ( zero ) , y
; a line of its own / nop ; after an instruction / ;nothing
 / nop /  / 
BYTE 1 / WORD 2 / TEXT "3" / FILL 4
asl / lsr / rol / ror
jmp (data) / jmp data / jsr data / jmp here
bne *+2 / beq *-2 / bcc * / nop
ldx #0 / clear: lda #32 / sta $0400,x / sta $0500,x / sta $0600,x / sta $06e8,x / inx / bne clear / rts
clc / lda zero / adc #<1000 / sta zero / lda zero+1 / adc #>1000 / sta zero+1 / rts
ldx #8 / lda #0 / mul: lsr zero / bcc skip / clc / adc zero+1 / skip: ror / dex / bne mul / rts
ldy #0 / copy: lda (zero),y / sta (zero+2),y / iny / bne copy / inc zero+1 / inc zero+3 / dex / bne copy / rts
sei / lda #<irq / sta $0314 / lda #>irq / sta $0315 / cli / rts / irq: inc $d019 / jmp $ea31
chrout = $ffd2 / ldx #0 / @next: lda text,x / beq @done / jsr chrout / inx / bne @next / @done: rts / text: TEXT "HELLO, WORLD" / BYTE 13,0
table: WORD first,second / first: rts / second: rts / jump: asl / tax / lda table+1,x / pha / lda table,x / pha / rts
hex: pha / lsr / lsr / lsr / lsr / jsr digit / pla / and #15 / digit: cmp #10 / bcc @low / adc #6 / @low: adc #48 / jmp $ffd2
getin = $ffe4 / wait: jsr getin / beq wait / cmp #'Q' / bne wait / rts
dec16: lda zero / bne @low / dec zero+1 / @low: dec zero / rts
size = end-here / BYTE size / end: nop
lda #end-here / nop / end: rts
lda #>(end-1) / pha / lda #<(end-1) / pha / rts / end: rts
BYTE 'A','Z','0',' ' / lda #'!'
WORD $1234&$00ff,$1234|$00ff
FILL 2,<$1234 / FILL 2,>$1234""".splitlines()


def body(lines):
    """A text with what all texts name: three values, labels before and after the lines, and data."""
    text = ["count = 5", "zero = $fb", "ORG $c000", "here:", *lines, "next:", "rts", "data:", "BYTE 1,2,3", "later = 200"]
    return "\n".join(it if re.match(r"[a-zA-Z@;].*(:|=)|;|$", it) else f"    {it}" for it in text) + "\n"


def texts():
    """The texts by their names."""
    made = {"implied": body(IMPLIED.split())}
    for row in MODES.splitlines():
        mnemonics, modes = row.split(": ")
        for place, mnemonic in enumerate(mnemonics.split()):
            word = mnemonic.upper() if place % 2 else mnemonic
            made[mnemonic] = body([f"{word} {it}".rstrip() for mode in modes.split() for it in OPERANDS[mode].split("|")])
    values = re.split(r"\|(?![^(]*\))", EXPRESSIONS)
    for number, value in enumerate(values, 1):
        made[f"value{number}"] = body([f"WORD {value}"])
    for number, line in enumerate(LINES, 1):
        made[f"lines{number}"] = body([it.rstrip(" ") if it.strip() else "" for it in line.split(" / ")])
    return made


def spelled(text, words):
    """A text in an assembler's spelling; what is between quotation marks, and comments, stay as they are."""
    lines = []
    for line in text.splitlines():
        line = re.sub(r"SKIP (.*)", lambda it: words["SKIP"].format(it[1]), line)
        parts = re.split(r"(\"[^\"]*\"|;.*)", line)
        for place in range(0, len(parts), 2):
            parts[place] = re.sub(r"\b(ORG|BYTE|WORD|TEXT|FILL)\b", lambda it: words[it[1]], parts[place]).replace("@", words["@"])
        lines.append("".join(parts))
    return "\n".join(lines) + "\n"


def main():
    folder = Path(sys.argv[1])
    for name, text in texts().items():
        for assembler, words in SPELLINGS.items():
            (folder / f"{name}.{assembler}.s").write_text(spelled(text, words))
        print(name)


if __name__ == "__main__":
    main()
