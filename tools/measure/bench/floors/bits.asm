        .include "rules.inc"
        #begfar 1
        #begfar 10
        ldx #1
        stx vN
        dex
        stx vN+1
        #begfar 20
        #copies vK, vN
        #begins 30              ; D=K-K/2*2
        lda vK
        and #1
        ldx vK+1
        bmi N30
        sta vD
        lda #0
        sta vD+1
        #begins 40
        #adds vS, vD
        #begins 50              ; K=K/2
        lda vK+1
        bmi N50
        lsr vK+1
        ror vK
        #begins 60              ; IF K>0 GOTO 30
        lda vK+1
        bmi L70
        ora vK
        bne L30
        beq L70
N30     and #1
        beq +
        lda #$ff
+       sta vD
        sta vD+1
        jmp L40
N50     #counts vK
        lda vK+1
        cmp #$80
        ror vK+1
        ror vK
        jmp L60
        #cold 30
        #cold 40
        #cold 50
        #cold 60
        #begins 70
        #counts vN
        #begins 80              ; IF N<=500 GOTO 20
        lda vN+1
        bmi J20
        cmp #>501
        bcc J20
        bne L90
        lda vN
        cmp #<501
        bcs L90
J20     jmp L20
        #begins 90
        #prints vS
        #begins 100
        rts
        #cold 70
        #cold 80
        #cold 90
        #cold 100
        #cold 1
        #cold 10
        #cold 20
        #behind 100
        .word 1, L1, 10, L10, 20, L20, 30, L30, 40, L40, 50, L50, 60, L60, 70, L70, 80, L80, 90, L90, 100, L100
