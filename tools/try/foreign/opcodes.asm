; Does instructions by a table, and sends what each leaves: seven bytes, A, X, Y, P, S, a byte of memory, and 1 if the
; program went on at another place than behind the instruction. Assembled by `tbc asm` at $080D; opcode_programs.py puts the
; table behind it.
;
; A record has 20 bytes, which are kept at $C100:
;   $C100 the instruction, three bytes; $C103 X; $C104 Y; $C105 S, if it is not 0; $C106 the address of a list of flags, which
;   ends with $FF; $C108 that of five values of A; $C10A the flags that are compared; $C10B three pokes, each an address and a
;   byte. The first one is read again.
; The last record begins with 0. Each instruction is done with each A of its list and with all flags of its list.
;   $C120 S of this program, $C121 which flags, $C122 which A, $C123 the flags, $C124 A, $C125 which byte is sent
;   $C130 what is sent

START:  LDA #<RECORDS
        STA FROM
        LDA #>RECORDS
        STA FROMH
        LDX #$05                ; the place of the instruction, and those where it may lead
LAY:    LDA PLACE,X
        STA $C800,X
        LDA PAD,X
        STA $C782,X             ; 126 bytes before the next instruction, and
        STA $C840,X
        STA $C881,X             ; 127 behind it
        DEX
        BPL LAY

RECORD: LDY #$13
COPY:   .byte $B9               ; LDA RECORDS,Y
FROM:   .byte $00
FROMH:  .byte $00
        STA $C100,Y
        DEY
        BPL COPY
        LDA $C100
        BNE DO
        RTS
DO:     STA $C800
        LDA $C101
        STA $C801
        LDA $C102
        STA $C802
        LDA $C10B
        STA POKE0
        STA READ
        LDA $C10C
        STA POKE0H
        STA READH
        LDA $C10E
        STA POKE1
        LDA $C10F
        STA POKE1H
        LDA $C111
        STA POKE2
        LDA $C112
        STA POKE2H
        LDA $C106
        STA FLAGS
        LDA $C107
        STA FLAGSH
        LDA $C108
        STA VALUES
        LDA $C109
        STA VALUESH
        LDA #$00
        STA $C121
FLAG:   LDA #$00
        STA $C122
        LDX $C121
        .byte $BD               ; LDA list,X
FLAGS:  .byte $00
FLAGSH: .byte $00
        CMP #$FF                ; which ends it
        BEQ DONE
        STA $C123
        INC $C121
VALUE:  LDX $C122
        CPX #$05
        BEQ FLAG
        .byte $BD
VALUES: .byte $00
VALUESH:.byte $00
        STA $C124
        INC $C122
        JMP ONCE
DONE:   CLC
        LDA FROM
        ADC #$14
        STA FROM
        BCC BEHIND
        INC FROMH
BEHIND: JMP RECORD

ONCE:   SEI
        TSX
        STX $C120
        LDX $C105
        BEQ KEPT
        TXS
KEPT:   LDA $C10D
        .byte $8D
POKE0:  .byte $00
POKE0H: .byte $00
        LDA $C110
        .byte $8D
POKE1:  .byte $00
POKE1H: .byte $00
        LDA $C113
        .byte $8D
POKE2:  .byte $00
POKE2H: .byte $00
        LDA $C123
        PHA
        LDX $C103
        LDY $C104
        LDA $C124
        PLP
        JMP $C800

PLACE:  .byte $EA,$EA,$EA
        JMP AFTER
PAD:    JMP TAKEN
        JMP TAKEN

AFTER:  PHP
        STA $C130
        LDA #$00
        BEQ REST
TAKEN:  PHP
        STA $C130
        LDA #$01
REST:   STA $C136
        STX $C131
        STY $C132
        PLA
        AND $C10A
        STA $C133
        TSX
        STX $C134
        LDX $C120
        TXS
        CLD
        CLI
        .byte $AD
READ:   .byte $00
READH:  .byte $00
        STA $C135
        LDA #$00
        STA $C125
SEND:   LDX $C125
        LDA $C130,X
        JSR $FFD2
        INC $C125
        LDA $C125
        CMP #$07
        BNE SEND
        JMP VALUE

RECORDS:
