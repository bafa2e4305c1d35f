; The routine block: the machine code that every compiled program shares.
;
; It lies at $080D, right behind the BASIC line "10 SYS2061", takes 1,011 bytes and is the same in every program.
; The program's own lines begin at $0C00 and call these routines.
;
; This text is the source of the bytes that tb_runtime16 holds. A program of the gate (tb_golden) assembles it and compares;
; by hand: tbc asm block.asm block.prg --at 080D. The assembler has no names for numbers, so the name of a data
; place stands in the comment.
;
;
; ---- Data
;
; A word stands low byte first. All these places belong to the program: no ROM writes them.
;
;   $00FB  LEFT       word: first argument; POINTER, the byte or the table entry that is looked at
;   $00FD  RIGHT      word: second argument; TABLE, the line table's address
;   $C000  VARS       26 words, the variables A to Z
;   $C034  COLUMN     byte: bytes sent since the last 13 or the start, modulo 256
;   $C035  OPEN       byte: 1 where an input line is open, else 0
;   $C036  SEEDED     byte: 1 where SEED holds an RND state, else 0
;   $C037  HOME_S     byte: the stack pointer as at the start
;   $C038  SEED       word: the RND state
;   $C03A  LINE       word: the number of the line that is executed
;   $C03C  NOTES      word: how many returns the return list holds, 0 to 500
;   $C040  SLOTS      16 words, of the lines' code
;   $C060  HELD       word, of the lines' code
;   $C066  RESULT     word: result
;   $C068  WANTED     word: the number of the line that Search looks for
;   $C06A  COUNT      word: how many entries the line table has
;   $C06C  LENGTH     byte: a text's length
;   $C06D  BYTE       byte: a byte that is sent
;   $C06E  SCRATCH    18 bytes, up to $C07F
;   $C100  RETURN_LOW   500 bytes, the returns' low bytes
;   $C300  RETURN_HIGH  500 bytes, their high bytes
;
;
; ---- Rules
;
; A service (CHROUT $FFD2, CHRIN $FFCF, GETIN $FFE4) may leave anything in X, Y and the flags but D, and in A
; unless it gives a byte there. Between any two instructions an interrupt may rewrite page zero but $FB to $FE,
; $0200 to $07FF, and the stack at or below the stack pointer. So nothing is kept in a register or a flag over a
; service, and what is kept in memory stands in the places above, or on the stack above the stack pointer.
;
; A routine is called by JSR, with D clear: the prologue clears it, and nothing sets it again. Its arguments are
; used up unless it says that they stand, and A, X, Y and the flags are worth nothing after it. Of the other data
; it changes what its head says, and no more.
;
; "Stack" is the most that a routine has on the stack below its return address, in bytes. "Time" is the most
; instructions that it takes, where a service counts as one; this is proved, and so is what each routine does.
;
; A fault is JMP FAULT with the fault's number in A, from any depth: it ends the program.
;
;
; ---- Prologue: where SYS begins the program
;
; Out:     $C000 to $C036 and $C038 to $C03D are 0 (VARS, COLUMN, OPEN, SEEDED, SEED, LINE, NOTES), HOME_S is S,
;          D is clear; goes to the first line.
; Stack:   0.  Time: 192.
;
; X runs from $3D down to 0 and is $FF after the last byte, which ends the loop. HOME_S is cleared with the rest
; and set behind the loop.
PROLOGUE:
        CLD                     ; the caller may have left it set
        LDX #$3D
        LDA #$00
CLEAR:
        STA $C000,X             ; VARS + X
        DEX
        BPL CLEAR
        TSX
        STX $C037               ; HOME_S
        JMP $0C00               ; the first line

; ---- Send: sends a byte, and keeps COLUMN
;
; In:      A: the byte.
; Changes: COLUMN: one more, or 0 after a 13.
; Stack:   0 (CHROUT returns to Send's caller).  Time: 7.
;
; Each byte raises COLUMN. For a 13 it is set to $FF before, so that it comes to 0. A is not touched on the way.
SEND:
        CMP #$0D
        BNE SEND1
        LDX #$FF
        STX $C034               ; COLUMN
SEND1:
        INC $C034               ; COLUMN
        JMP $FFD2               ; CHROUT

; ---- Divide: LEFT = LEFT / RIGHT, signed, truncated toward zero; RESULT = the remainder without its sign
;
; In:      LEFT, RIGHT.
; Out:     LEFT, RESULT. -32768 / -1 gives -32768: as a word it is its own negative, and the negation of LEFT keeps it.
; Fault:   2 where RIGHT is 0.
; Stack:   4.  Time: 203, and 10 up to the fault.
;
; The frequent case comes first: where RIGHT is 1 to 127 and LEFT's high byte, without a sign, is below it, neither is
; negative and the quotient fits a byte. A is LEFT's high byte then, and X is 0.
DIVIDE:
        BIT $FD                 ; RIGHT
        BMI DIVIDEANY
        LDA $FC                 ; LEFT
        CMP $FD
        BCS DIVIDEANY
        LDX $FE
        BEQ BYTEFEW

; The sizes are divided, and the quotient is negated after if the signs differ: that is what follows.
DIVIDEANY:
        LDA $FD                 ; RIGHT
        ORA $FE
        BEQ DIVIDEZERO
        LDA $FC                 ; both signs
        EOR $FE
        BPL DIVIDESIZES
        JSR DIVIDESIZES

; LEFT = -LEFT. Y stands. Time: 9. Stack: 0.
NEGATELEFT:
        LDX #$00

; The word at LEFT + X is negated: X is 0 for LEFT, 2 for RIGHT.
NEGATE:
        SEC
        LDA #$00
        SBC $FB,X               ; LEFT + X
        STA $FB,X
        LDA #$00
        SBC $FC,X
        STA $FC,X
        RTS
DIVIDEZERO:
        LDA #$02
        JMP FAULT

; LEFT = the size of LEFT / the size of RIGHT.
DIVIDESIZES:
        LDA $FC                 ; LEFT's sign
        BPL DIVIDEBY
        JSR NEGATELEFT
DIVIDEBY:
        LDA $FE                 ; RIGHT's sign
        BPL UNSIGNED
        LDX #$02
        JSR NEGATE

; LEFT = LEFT / RIGHT, RESULT = the remainder, without signs, for RIGHT from 1 to 32768. RIGHT stands.
; Divide and Random divide by it. Stack: 2. Time: 156.
;
; Where RIGHT is below 128, LEFT's bytes are divided one after the other, the high one first, by eight rounds each.
; The high byte is divided at the low one's place, which X keeps meanwhile; its quotient is 1 or more. Where the high
; byte is below RIGHT, it is the rest of its own division already, and its quotient is 0.
UNSIGNED:
        LDX #$00
        CPX $FE                 ; C clear where RIGHT's high byte is not 0
        BNE WIDE
        LDA $FC                 ; LEFT
        CMP $FD
        LDY $FD                 ; leaves C
        BMI WIDEHALF
        BCC BYTEFEW
        LDX $FB
        STA $FB
        LDA #$00
        JSR ROUNDS
        LDY $FB
        STX $FB
        STY $FC
        BNE ROUNDS              ; always
BYTEFEW:
        STX $FC

; The byte at LEFT, with the rest above it in A, which is below RIGHT: so it fits a byte when it is doubled and takes
; a bit more. A round moves the byte's highest bit into A, and leaves in C whether RIGHT went into A, which the next
; shift moves into the byte: so what was in C before the first round comes out at the last shift. Y counts two turns
; of four rounds. The rest is in A and RESULT after them. X stands.
ROUNDS:
        LDY #$02
ROUND:
        ROL $FB                 ; LEFT
        ROL A
        CMP $FD                 ; RIGHT
        BCC ROUND2
        SBC $FD
ROUND2:
        ROL $FB
        ROL A
        CMP $FD
        BCC ROUND3
        SBC $FD
ROUND3:
        ROL $FB
        ROL A
        CMP $FD
        BCC ROUND4
        SBC $FD
ROUND4:
        ROL $FB
        ROL A
        CMP $FD
        BCC ROUNDEND
        SBC $FD
ROUNDEND:
        DEY
        BNE ROUND
        ROL $FB
        STA $C066               ; RESULT
        STY $C067
        RTS

; RIGHT is 128 or more: the quotient's high byte is 1 where RIGHT is a byte and LEFT's high byte not below it, else 0.
; C has that bit, and LEFT's high byte less RIGHT or as it is is the rest for eight rounds on the low byte, with the
; rest in A and LEFT + 1. As above, C comes out again at the last shift. X counts the rounds.
WIDEHALF:
        BCC WIDE
        SBC $FD
        STA $FC
WIDE:
        TXA
        LDX #$08
WIDENEXT:
        ROL $FB                 ; LEFT
        ROL $FC
        ROL A
        CMP $FE                 ; the rest - RIGHT
        BCC WIDELESS
        BNE WIDEMORE
        LDY $FC
        CPY $FD
        BCC WIDELESS
WIDEMORE:
        TAY                     ; C is set
        LDA $FC
        SBC $FD
        STA $FC
        TYA
        SBC $FE
WIDELESS:
        DEX
        BNE WIDENEXT
        ROL $FB
        STA $C067               ; RESULT
        LDA $FC
        STA $C066
        TXA
        ROL A
        STA $FC
        RTS

; ---- Random: RESULT = the next RND state modulo RIGHT
;
; In:      RIGHT: the bound. LEFT: the first RND state, used only where SEEDED is 0.
; Out:     RESULT: 0 to RIGHT - 1.
; Changes: SEED: 25173 times the state before, plus 13849, modulo 65,536; SEEDED: 1.
; Fault:   3 where RIGHT is below 1.
; Stack:   0.  Time: 242, and 6 up to the fault.
;
; 25173 is 256 * 98 + 85. So four turns of 4 times the word and the state, from 98 times the state's low byte, make
; 25173 times the state: what LEFT + 1 held is shifted out. X counts the turns.
; The state is read without a sign, as Unsigned does, and the remainder that Unsigned leaves in RESULT is the answer.
RANDOM:
        LDA $FE                 ; RIGHT
        BMI RANDOMBAD
        ORA $FD
        BNE RANDOMGO
RANDOMBAD:
        LDA #$03
        JMP FAULT
RANDOMGO:
        LDA $C036               ; SEEDED
        BNE RANDOMSTORED
        LDA $FC                 ; SEED = LEFT
        STA $C039
        LDA $FB
        STA $C038
RANDOMSTORED:
        LDA $C038               ; LEFT = SEED's low byte
        STA $FB
        LDX #$04
        ASL A                   ; 98 times that byte: 2 times
        CLC
        ADC $FB                 ; 3 times
        ASL A
        ASL A
        ASL A
        ASL A                   ; 48 times
        CLC
        ADC $FB                 ; 49 times
        ASL A
RANDOMTURN:
        ASL A                   ; A and LEFT + 1: 4 times the word, and SEED
        ROL $FC
        ASL A
        ROL $FC
        CLC
        ADC $FB
        TAY
        LDA $FC
        ADC $C039
        STA $FC
        TYA
        DEX
        BNE RANDOMTURN
        INX
        STX $C036               ; SEEDED
        CLC                     ; SEED = LEFT = that + 13849
        ADC #$19
        STA $C038
        STA $FB
        LDA $FC
        ADC #$36
        STA $C039
        STA $FC
        JMP UNSIGNED

; ---- Multiply: RESULT = LEFT * RIGHT, modulo 65,536, with or without signs
;
; In:      LEFT, RIGHT.
; Out:     RESULT.
; Stack:   0.  Time: 245.
;
; A round for each bit of RIGHT from the lowest on, up to the last that is 1: the bit is shifted out, and where it
; is 1, LEFT is added to the sum, which is in A and Y. LEFT doubles in each round.
MULTIPLY:
        LDA #$00                ; the sum's low byte
        TAY                     ; its high byte
MULTIPLY1:
        LSR $FE                 ; RIGHT = RIGHT / 2, its lowest bit in C
        ROR $FD
        BCC MULTIPLY2
        CLC
        ADC $FB                 ; LEFT is added
        TAX
        TYA
        ADC $FC
        TAY
        TXA
MULTIPLY2:
        ASL $FB                 ; LEFT = LEFT * 2
        ROL $FC
        LDX $FD                 ; on while RIGHT has a bit left
        BNE MULTIPLY1
        LDX $FE
        BNE MULTIPLY1
        STA $C066               ; RESULT
        STY $C067
        RTS

; ---- Number: sends a signed word in decimal, as short as can be
;
; In:      LEFT.
; Changes: RIGHT, RESULT, COLUMN.
; Stack:   4.  Time: 334.
;
; A negative word sends its sign and is negated. A word of 768 or more is divided by 100: its quotient, which is at most
; 327, is sent as a number by itself, and then the two digits of the rest, which is in RESULT. Of any other word 100 is
; taken as often as it goes in, and then 10: a byte below 100 begins with its tens, a byte below 10 with its last digit.
; X counts, from the text before that of 0 on. What is left waits in LEFT while a digit is sent. No byte of it is a 13,
; so it goes past Send's test.
NUMBER:
        LDA $FC                 ; LEFT's sign
        BPL NUMBERPLAIN
        LDA #$2D                ; -
        JSR SEND1
        JSR NEGATELEFT

; The word at LEFT, without a sign.
NUMBERPLAIN:
        LDA $FB                 ; LEFT, in A and Y
        LDY $FC
        BEQ NUMBERBYTE
        CPY #$03
        BCC HUNDREDS
        LDX #$64                ; RIGHT = 100
        STX $FD
        LDX #$00
        STX $FE
        JSR UNSIGNED
        JSR NUMBERPLAIN         ; the quotient
        LDA $C066               ; RESULT: the rest
        BPL TENS                ; always
NUMBERBYTE:
        CMP #$0A
        BCC LASTDIGIT
        CMP #$64
        BCC TENS

; The word in A and Y, below 1,000. A hundred is taken once too often, and put back.
HUNDREDS:
        LDX #$2F
HUNDREDSAGAIN:
        SEC
HUNDREDSTAKE:
        INX
        SBC #$64
        BCS HUNDREDSTAKE
        DEY
        BPL HUNDREDSAGAIN
        ADC #$64                ; C is clear
        STA $FB
        TXA
        JSR SEND1
        LDA $FB

; The byte in A, below 100.
TENS:
        LDX #$2F
        SEC
TENSTAKE:
        INX
        SBC #$0A
        BCS TENSTAKE
        ADC #$0A                ; C is clear
        STA $FB
        TXA
        JSR SEND1
        LDA $FB
LASTDIGIT:
        ORA #$30
        JMP SEND1

; ---- Text: sends bytes of the program
;
; In:      POINTER: where they stand. LENGTH: how many, 0 to 255.
; Changes: COLUMN.
; Stack:   2.  Time: 15 for each byte, and 3.
;
; Y is 0 for each byte anew, and POINTER goes on instead: Y would not outlast CHROUT.
TEXT:
        LDA $C06C               ; LENGTH
        BEQ TEXT3
TEXT1:
        LDY #$00
        LDA ($FB),Y             ; POINTER
        JSR SEND
        INC $FB                 ; POINTER = POINTER + 1
        BNE TEXT2
        INC $FC
TEXT2:
        DEC $C06C               ; LENGTH
        BNE TEXT1
TEXT3:
        RTS

; ---- Zone: sends spaces up to the next column that 8 divides, at least one
;
; Changes: COLUMN.
; Stack:   2.  Time: 65.
ZONE:
        LDA #$20
        JSR SEND1               ; no 13
        LDA $C034               ; COLUMN modulo 8
        AND #$07
        BNE ZONE
        RTS

; ---- Input: one variable's turn of INPUT
;
; Out:     RESULT: the number's value modulo 65,536.
; Changes: OPEN, COLUMN; LEFT: the number so far; RIGHT: what was seen of it, 0 nothing, 1 a sign, 2 digits;
;          RIGHT + 1: the sign's byte, or 0.
; Fault:   6 at a byte that is not the number's next.
; Waits:   in CHRIN where the keyboard's text ends.
; Stack:   2.  Time: 45 for each byte of the keyboard's text, and 463 (with the fault).
;
; Where no line is open, "? " is sent and a line is open. Spaces are passed over, before, inside and behind the
; number. It ends at a comma, which leaves the line open for the next turn, or at a 13, which is sent and closes
; the line; at least one digit must have come. Each digit makes LEFT 10 times itself and the digit. A bad byte
; sends nothing of its own.
INPUT:
        LDA $C035               ; OPEN
        BNE INPUT1
        LDA #$3F                ; ?
        JSR SEND
        LDA #$20
        JSR SEND
        INC $C035               ; OPEN
INPUT1:
        LDA #$00
        STA $FB                 ; LEFT = 0
        STA $FC
        STA $FD                 ; RIGHT: nothing seen
        STA $FE                 ; RIGHT + 1: no sign
READ:
        JSR $FFCF               ; CHRIN
        CMP #$20
        BEQ READ
        CMP #$2B                ; +
        BEQ SIGN
        CMP #$2D                ; -
        BEQ SIGN
        CMP #$2C                ; ,
        BEQ DONE
        CMP #$0D
        BEQ DONE
        SBC #$30                ; C is clear below 13 alone: no digit comes of that either
        CMP #$0A
        BCS BAD
        TAY                     ; the digit
        LDX $FC                 ; LEFT + 1 and A: LEFT * 4
        LDA $FB
        ASL A
        ROL $FC
        ASL A
        ROL $FC
        CLC
        ADC $FB                 ; A and LEFT: that + LEFT, 5 times
        STA $FB
        TXA
        ADC $FC
        ASL $FB                 ; LEFT = that * 2
        ROL A
        STA $FC
        TYA
        CLC
        ADC $FB                 ; LEFT = that + the digit
        STA $FB
        BCC DIGIT
        INC $FC
DIGIT:
        LDA #$02
        STA $FD                 ; RIGHT: digits seen
        BNE READ                ; always
SIGN:
        LDY $FD                 ; RIGHT: a sign stands only before all else
        BNE BAD
        STA $FE                 ; RIGHT + 1 = the sign
        INC $FD                 ; RIGHT: a sign seen
        BNE READ                ; always
BAD:
        LDA #$06
        JMP FAULT
DONE:
        TAY                     ; the byte, which stands in Y
        LSR $FD                 ; RIGHT: digits must have come
        BEQ BAD
        LDA $FE                 ; RIGHT + 1
        CMP #$2D
        BNE DONE1
        JSR NEGATELEFT
DONE1:
        LDA $FB                 ; RESULT = LEFT
        STA $C066
        LDA $FC
        STA $C067
        CPY #$0D
        BNE DONE2
        DEC $C035               ; OPEN
        TYA
        JMP SEND
DONE2:
        RTS

; ---- Search: RESULT = the code address of the line with the number WANTED
;
; In:      WANTED: the number, which stands. TABLE, COUNT: the line table, of at least one entry.
; Out:     RESULT.
; Changes: POINTER, TABLE, COUNT; SCRATCH: a word, HALF.
; Fault:   1 where no entry has the number.
; Stack:   0.  Time: 510, whatever the table that memory holds.
;
; An entry is four bytes, a line's number and its code's address, and the numbers rise. All is compared without
; signs, so a negative WANTED is above every number.
;
; By halving: the entry is, if anywhere, among the COUNT entries from TABLE on. HALF is COUNT / 2. The entry HALF
; further on is probed: where WANTED is below its number, the HALF entries before it are left, else those from it on,
; COUNT - HALF.
SEARCH:
        LDA $C06B               ; 64 entries or more?
        BNE SEARCH_WIDE
        LDA $C06A
        CMP #$40
        BCC SEARCH_SHORT
SEARCH_WIDE:
        LDA $C06B               ; HALF = COUNT / 2, its high byte in POINTER + 1 too
        LSR A
        STA $C06F
        STA $FC
        LDA $C06A
        ROR A
        STA $C06E
        ASL A                   ; POINTER + 1 and A: HALF * 4
        ROL $FC
        ASL A
        ROL $FC
        CLC
        ADC $FD                 ; POINTER = TABLE + HALF * 4
        STA $FB
        LDA $FC
        ADC $FE
        STA $FC
        LDY #$00
        LDA $C068               ; WANTED - the number there: C clear where WANTED is below
        CMP ($FB),Y
        INY
        LDA $C069
        SBC ($FB),Y
        BCC SEARCH_LOWER
        LDA $FB                 ; TABLE = POINTER
        STA $FD
        LDA $FC
        STA $FE
        LDA $C06A               ; COUNT = COUNT - HALF: C is set still
        SBC $C06E
        STA $C06A
        LDA $C06B
        SBC $C06F
        STA $C06B
        BCS SEARCH              ; always: HALF is not above COUNT
SEARCH_LOWER:
        LDA $C06E               ; COUNT = HALF
        STA $C06A
        LDA $C06F
        STA $C06B
        JMP SEARCH
;
; Fewer than 64 entries are fewer than 256 bytes: TABLE stands, and POINTER's low byte is how far the entries in
; question lie behind it. A is COUNT at the head of a round, X is HALF. The last entry is compared by itself.
SEARCH_SHORT:
        LDY #$00
        STY $FB
SEARCH_HALVE:
        LSR A
        BEQ SEARCH_LAST
        TAX
        ASL A                   ; Y = POINTER + HALF * 4
        ASL A
        CLC
        ADC $FB
        TAY
        LDA $C068               ; WANTED - the number there: C clear where WANTED is below
        CMP ($FD),Y
        INY
        LDA $C069
        SBC ($FD),Y
        BCC SEARCH_FRONT
        DEY
        STY $FB                 ; POINTER = Y
        STX $FC
        LDA $C06A               ; COUNT = COUNT - HALF: C is set still
        SBC $FC
        STA $C06A
        BCS SEARCH_HALVE        ; always
SEARCH_FRONT:
        STX $C06A               ; COUNT = HALF
        TXA
        BNE SEARCH_HALVE        ; always
SEARCH_LAST:
        LDY $FB
        LDA ($FD),Y             ; the number
        CMP $C068               ; WANTED
        BNE SEARCH_NONE
        INY
        LDA ($FD),Y
        CMP $C069
        BNE SEARCH_NONE
        INY
        LDA ($FD),Y             ; RESULT = the address
        STA $C066
        INY
        LDA ($FD),Y
        STA $C067
        RTS
SEARCH_NONE:
        LDA #$01
        JMP FAULT

; ---- Push: one more return on the return list
;
; In:      LEFT: the return, a code address; it stands.
; Changes: NOTES, one more; RETURN_LOW, RETURN_HIGH. RESULT stands: GOSUB keeps its target there.
; Fault:   4 where NOTES is 500 already.
; Stack:   0.  Time: 13, and 7 up to the fault.
;
; The low byte of NOTES is the return's place on a page: on the first pages of RETURN_LOW and RETURN_HIGH where the high
; byte is 0, else on the second ones.
PUSH:
        LDX $C03C               ; NOTES
        LDA $C03D
        BNE PUSH_FAR
        LDA $FB                 ; LEFT
        STA $C100,X             ; RETURN_LOW
        LDA $FC
        STA $C300,X             ; RETURN_HIGH
PUSH_COUNT:
        INC $C03C               ; NOTES = NOTES + 1
        BNE PUSH_END
        INC $C03D
PUSH_END:
        RTS
PUSH_FAR:
        CPX #$F4                ; NOTES - 500: C set where it is not negative
        BCS PUSH_FULL
        LDA $FB                 ; LEFT
        STA $C200,X
        LDA $FC
        STA $C400,X
        BCC PUSH_COUNT          ; always: C is clear still
PUSH_FULL:
        LDA #$04
        JMP FAULT

; ---- Pop: RESULT = the newest return, which leaves the return list
;
; Out:     RESULT.
; Changes: NOTES, one less.
; Fault:   5 where NOTES is 0.
; Stack:   0.  Time: 14, and 6 up to the fault.
POP:
        LDX $C03C               ; NOTES = NOTES - 1, borrowing where the low byte is 0
        BNE POP_LOW
        LDA $C03D
        BEQ POP_NONE
        DEC $C03D
POP_LOW:
        DEX
        STX $C03C
        LDA $C03D
        BNE POP_FAR
        LDY $C300,X             ; RETURN_HIGH
        LDA $C100,X             ; RETURN_LOW
POP_STORE:
        STA $C066               ; RESULT
        STY $C067
        RTS
POP_FAR:
        LDY $C400,X
        LDA $C200,X
        JMP POP_STORE
POP_NONE:
        LDA #$05
        JMP FAULT

; ---- Fault: ends the program with the text of a fault: 13, !k AT n, 13
;
; In:      A: the fault's number k, 0 to 7. LINE: n. HOME_S.
; Stack:   6 below the start's.  Time: 416, and 418 from FAULTLINE on.
;
; FAULTLINE takes n in X (low byte) and Y, and puts it into LINE.
;
; Goes back to where SYS came from, from any depth: S is set to what it was at the start, and the last CHROUT
; returns there. Nothing is called that could fault.
FAULTLINE:
        STX $C03A               ; LINE = n
        STY $C03B
FAULT:
        CLC
        ADC #$30
        STA $C06D               ; BYTE: k as a digit
        LDX $C037               ; HOME_S
        TXS
        LDA #$0D
        JSR SEND
        LDA #$21                ; !
        JSR SEND
        LDA $C06D               ; BYTE
        JSR SEND
        LDA #$20
        JSR SEND
        LDA #$41                ; A
        JSR SEND
        LDA #$54                ; T
        JSR SEND
        LDA #$20
        JSR SEND
        LDA $C03A               ; LEFT = LINE
        STA $FB
        LDA $C03B
        STA $FC
        JSR NUMBER
        LDA #$0D
        JMP SEND

; ---- Poll: one look at the keyboard
;
; Fault:   0 where the STOP key is down, that is where GETIN gives 3; any other answer is lost.
; Stack:   2.  Time: 5, and 422 with the fault.
POLL:
        JSR $FFE4               ; GETIN
        CMP #$03
        BEQ POLL1
        RTS
POLL1:
        LDA #$00
        JMP FAULT
