        .include "rules.inc"
        #begfar 1
        #begfar 10
        #sets vA, 1
        #begfar 20
        #copies vB, vA
        #begfar 30              ; S=A*A+B*B
        lda vA+1
        ora vB+1
        bne J30
        ldx vA
        ldy vB
        clc
        lda SQLO,x
        adc SQLO,y
        sta vS
        lda SQHI,x
        adc SQHI,y
        sta vS+1
        #begins 40
        #copies vC, vB
        #begins 50              ; IF C*C>=S GOTO 80
        lda vC+1
        bne J50
        ldx vC
        lda SQLO,x
        cmp vS
        lda SQHI,x
        sbc vS+1
        bvc +
        eor #$80
+       bpl J80
        #begins 60
        #counts vC
        #begins 70
        jmp L50
J30     jmp S30
J50     #products vC, vC
        #compares RESULT, vS
        bmi L60
J80     jmp L80
        #cold 40
        #cold 50
        #cold 60
        #cold 70
        #cold 1
        #cold 10
        #cold 20
        #cold 30
S30     #products vA, vA
        #copies vS, RESULT
        #products vB, vB
        #adds vS, RESULT
        jmp L40
        #begfar 80              ; IF C*C=S PRINT A;" ";B;" ";C
        lda vC+1
        beq +
        jmp S80
+       ldx vC
        lda SQLO,x
        cmp vS
        bne L90
        lda SQHI,x
        cmp vS+1
        bne L90
show    #writes vA
        #sends " "
        #writes vB
        #sends " "
        #prints vC
        #begins 90
        #counts vB
        #begins 100
        #below vB, 21, 30
        #begins 110
        #counts vA
        #begins 120
        #below vA, 21, 20
        #begins 130
        rts
        #cold 80
        #cold 90
        #cold 100
        #cold 110
        #cold 120
        #cold 130
S80     #products vC, vC
        lda RESULT
        cmp vS
        bne _no
        lda RESULT+1
        cmp vS+1
        bne _no
        jmp show
_no     jmp L90
        #behind 130
        .include "squares.inc"
        .word 1, L1, 10, L10, 20, L20, 30, L30, 40, L40, 50, L50, 60, L60, 70, L70, 80, L80, 90, L90, 100, L100, 110, L110, 120, L120, 130, L130
