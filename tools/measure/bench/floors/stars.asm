        .include "rules.inc"
        #begfar 1
        #begfar 10
        ldx #1
        stx vI
        dex
        stx vI+1
        #begins 20
        ldx #1
        stx vJ
        dex
        stx vJ+1
        #begins 30              ; PRINT "*";
        lda #42
        jsr CHROUT
        #begins 40
        #counts vJ
        #begins 50              ; IF J<=I GOTO 30
        lda vI
        cmp vJ
        lda vI+1
        sbc vJ+1
        bvc +
        eor #$80
+       bpl L30
        #begins 60
        lda #13
        jsr CHROUT
        #begins 70
        #counts vI
        #begins 80              ; IF I<=40 GOTO 20
        lda vI+1
        bne F80
        lda vI
        cmp #41
        bcs L90
J20     jmp L20
F80     bmi J20
        #begins 90
        rts
        #cold 20
        #cold 30
        #cold 40
        #cold 50
        #cold 60
        #cold 70
        #cold 80
        #cold 90
        #cold 1
        #cold 10
        #behind 90
        .word 1, L1, 10, L10, 20, L20, 30, L30, 40, L40, 50, L50, 60, L60, 70, L70, 80, L80, 90, L90
