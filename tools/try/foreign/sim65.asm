; The three services for sim65, at $A000, assembled by `tbc asm`. sim65 reads at $FFF6, writes at $FFF7 and ends at $FFF9:
; A and X hold the count, and the words at the place that $00 and $01 name are the buffer and the descriptor.
; Each service spoils every register but its result, and bytes of the memory that a ROM may write.
        JMP START
        JMP CHROUT              ; $A003, from $FFD2
        JMP CHRIN               ; $A006, from $FFCF
        JMP GETIN               ; $A009, from $FFE4
BUFFER: .byte $00
COUNTER:.byte $00
PLACE:  .word BUFFER
FILE:   .word $0000

START:  LDX #$FD
        TXS
        JSR $080D
        LDA #$00
        JMP $FFF9

CHROUT: STA BUFFER
        LDA #$01
        JSR ARGS
        JSR $FFF7
        JSR SPOIL
        PHA
        LDA COUNTER
        JMP BACK

CHRIN:  LDA #$00
        JSR ARGS
        JSR $FFF6
        TAX
        BNE TYPED
        LDA #$06                ; it waits for a key
        JMP $FFF9
TYPED:  JSR SPOIL
        PHA
        LDA BUFFER
        JMP BACK

GETIN:  JSR SPOIL
        PHA
        LDA #$00

BACK:   LDX COUNTER
        LDY COUNTER
        PLP
        RTS

ARGS:   STA FILE
        LDA #<PLACE
        STA $00
        LDA #>PLACE
        STA $01
        LDA #$01
        LDX #$00
        RTS

; New bytes in the ROM's memory. A is what the flags become: N, V, Z, C of the counter.
SPOIL:  LDA COUNTER
        CLC
        ADC #$25
        STA COUNTER
        STA $02
        STA $FA
        STA $FF
        STA $0100
        STA $0200
        STA $0277
        STA $07FF
        AND #$C3
        RTS
