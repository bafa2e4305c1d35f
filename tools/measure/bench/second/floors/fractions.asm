        .include "rules.inc"
        #begfar 1
        #begfar 10
        #sets vN, 9900
        jmp L20
        #cold 1
        #cold 10
        #cold 20
        #cold 30
        #cold 40
        #cold 50
J40     jmp S40
        #begins 20
        #sets vA, 31416
        #begins 30
        #copies vB, vN
        #begins 40              ; Q=A/B
        #quotient vA, vQ, vB, 5, 40
        #begins 50              ; PRINT Q;" ";
        #writes vQ
        #sends " "
        #begfar 60              ; R=A-Q*B
        #takes vR, vA, vQ, vB, 6, 60
        #begins 70
        #copies vA, vB
        #begins 80
        #copies vB, vR
        #begins 90              ; IF B>0 GOTO 40
        lda vB+1
        bmi N90
        ora vB
        beq N90
        jmp L40
J60     jmp S60
N90     jmp L100
        #cold 70
        #cold 80
        #cold 90
        #cold 60
S40     #setline 40
        #copies LEFT, vA
        #copies RIGHT, vB
        jsr DIVIDE
        #copies vQ, LEFT
        jmp L50
S60     #products vB, vQ
        sec
        lda vA
        sbc RESULT
        sta vR
        lda vA+1
        sbc RESULT+1
        sta vR+1
        jmp L70
        #begins 100
        #ends
        #begins 110
        clc
        lda vN
        adc #2
        sta vN
        bcc +
        inc vN+1
+
        #begins 120             ; IF N<=10000 GOTO 20
        lda vN+1
        bmi J20
        cmp #>10001
        bcc J20
        bne L130
        lda vN
        cmp #<10001
        bcs L130
J20     jmp L20
        #begins 130
        rts
        #cold 100
        #cold 110
        #cold 120
        #cold 130
        #behind 130
        .word 1, L1, 10, L10, 20, L20, 30, L30, 40, L40, 50, L50, 60, L60, 70, L70, 80, L80, 90, L90, 100, L100, 110, L110, 120, L120, 130, L130
