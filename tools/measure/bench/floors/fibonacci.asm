        .include "rules.inc"
        #begfar 1
        #begfar 10
        lda #0
        sta vK
        sta vK+1
        #begfar 20
        lda #0
        sta vA
        sta vA+1
        #begfar 30
        ldx #1
        stx vB
        dex
        stx vB+1
        #begins 40
        #prints vA
        #begins 50              ; C=A+B
        clc
        lda vA
        adc vB
        sta vC
        lda vA+1
        adc vB+1
        sta vC+1
        #begins 60
        #copies vA, vB
        #begins 70
        #copies vB, vC
        #begins 80              ; IF A<20000 GOTO 40
        lda vA+1
        bmi J40
        cmp #>20000
        bcc J40
        bne L90
        lda vA
        cmp #<20000
        bcs L90
J40     jmp L40
        #cold 40
        #cold 50
        #cold 60
        #cold 70
        #cold 80
        #begins 90
        #counts vK
        #begins 100             ; IF K<30 GOTO 20
        lda vK+1
        bne F100
        lda vK
        cmp #30
        bcs L110
J20     jmp L20
F100    bmi J20
        #begins 110
        rts
        #cold 90
        #cold 100
        #cold 110
        #cold 1
        #cold 10
        #cold 20
        #cold 30
        #behind 110
        .word 1, L1, 10, L10, 20, L20, 30, L30, 40, L40, 50, L50, 60, L60, 70, L70, 80, L80, 90, L90, 100, L100, 110, L110
