; A ROM for the Commodore 64 at $E000, assembled by `tbc asm`, that runs one program and judges what it sends. Its services
; and interrupts are where the Commodore's are: foreign_run.py puts jumps to the ones below there, and the vectors. It finds
; all it needs in a RAM expansion: at $000000 a header, at
; $000100 the program, at $010000 the bytes that are wanted, at $020000 the keys.
; It ends by the debug cartridge: 0 all is as wanted, 1 another byte, 2 too many bytes, 3 it waits though it should not,
; 4 too few bytes, 5 it returned though it should wait.
        JMP RESET               ; $E000, from $FCE2
        JMP CHROUT              ; $E003, from $FFD2
        JMP CHRIN               ; $E006, from $FFCF
        JMP GETIN               ; $E009, from $FFE4
        JMP TICK                ; $E00C, from $FF48
        RTI                     ; $E00F, from $FE43

; The header, from $0340: the program's length, how many bytes are wanted, how many keys there are, and whether it is to
; wait at the end. Behind it the ROM's own.
;   $0340 $0342 $0344 words, $0346 byte
;   $0350 byte sent, $0351 byte fetched, $0352 where the next wanted byte is, $0356 where the next key is, $035A counter of
;   services, $035B counter of interrupts

RESET:  SEI
        CLD
        LDX #$FF
        TXS
        LDA #$37                ; before the direction, or the ROM vanishes
        STA $01
        LDA #$2F
        STA $00
        LDA #$00
        STA $DF0A
        STA $DF04
        STA $DF05
        STA $DF06
        STA $DF08
        LDA #$40
        STA $DF02
        LDA #$03
        STA $DF03
        LDA #$10
        STA $DF07
        LDA #$91
        STA $DF01               ; the header
        LDA #$00
        STA $DF04
        STA $DF06
        LDA #$01
        STA $DF05
        STA $DF02
        LDA #$08
        STA $DF03
        LDA $0340
        STA $DF07
        LDA $0341
        STA $DF08
        LDA #$91
        STA $DF01               ; the program
        LDA #$00
        STA $0352
        STA $0353
        STA $0356
        STA $0357
        LDA #$01
        STA $0354
        LDA #$02
        STA $0358
        LDA #$25                ; an interrupt each 1,062 cycles
        STA $DC04
        LDA #$04
        STA $DC05
        LDA #$81
        STA $DC0D
        LDA #$11
        STA $DC0E
        LDX #$FC
        TXS
        LDA #$00
        STA $035B
        CLI
FIRST:  LDA $035B               ; the first interrupt has come
        BEQ FIRST
        JSR $080D
        LDX $0346
        BNE EARLY
        JSR DONE
EARLY:  LDA #$05
        JMP STOP

; All wanted bytes are there, or there are too few.
DONE:   LDA $0342
        ORA $0343
        BEQ WELL
        LDA #$04
        JMP STOP
WELL:   LDA #$00
STOP:   STA $D7FF
HANG:   JMP HANG

CHROUT: STA $0350               ; a service breaks a rule here (breaches.txt)
        LDA $0342
        ORA $0343
        BNE MORE
        LDA #$02
        JMP STOP
MORE:   LDX #$00
        JSR FETCH
        LDA $0351
        CMP $0350
        BEQ SAME
        LDA #$01
        JMP STOP
SAME:   LDA $0342
        BNE LOW
        DEC $0343
LOW:    DEC $0342
        JSR SPOIL
        PHA
        LDA $035A
        JMP BACK

CHRIN:  LDA $0344
        ORA $0345
        BNE TYPED
        LDX $0346
        BEQ LATE
        JSR DONE
LATE:   LDA #$03
        JMP STOP
TYPED:  LDX #$04
        JSR FETCH
        LDA $0344
        BNE FEW
        DEC $0345
FEW:    DEC $0344
        JSR SPOIL
        PHA
        LDA $0351
        JMP BACK

GETIN:  JSR SPOIL
        PHA
        LDA #$00
BACK:   LDX $035A
        LDY $035A
        PLP
        RTS

; The next byte of the wanted ones (X is 0) or of the keys (4) to $0351.
FETCH:  LDA $0352,X
        STA $DF04
        LDA $0353,X
        STA $DF05
        LDA $0354,X
        STA $DF06
        LDA #$51
        STA $DF02
        LDA #$03
        STA $DF03
        LDA #$01
        STA $DF07
        LDA #$00
        STA $DF08
        LDA #$91
        STA $DF01
        INC $0352,X
        BNE NEAR
        INC $0353,X
NEAR:   RTS

; New bytes in the ROM's memory. A is what the flags become: N, V, Z, C of the counter; I stays clear.
SPOIL:  LDA $035A
        CLC
        ADC #$25
        STA $035A
        STA $02
        STA $FF
        STA $0277
        AND #$C3
        RTS

; The interrupt: it rewrites three bytes, and keeps the registers.
TICK:   PHA                     ; an interrupt breaks a rule here
        INC $035B
        LDA $035B
        STA $02
        STA $FF
        STA $0277
        LDA $DC0D
        PLA
        RTI
