        .include "rules.inc"
        #begins 1
        #begins 10
        #sets vN, 601
        #begfar 20
        #sends "1/"
        #writes vN
        #sends " = 0."
        #begfar 30
        #sets vR, 1
        #begfar 40
        #sets vI, 1
        jmp L50
        #cold 1
        #cold 10
        #cold 50
        #cold 60
J60     jmp S60
        #begins 50              ; R=10*R
        lda vR+1
        sta LEFT+1
        lda vR
        asl a
        rol LEFT+1
        asl a
        rol LEFT+1
        clc
        adc vR
        tax
        lda LEFT+1
        adc vR+1
        sta LEFT+1
        txa
        asl a
        sta vR
        lda LEFT+1
        rol a
        sta vR+1
        #begins 60              ; Q=R/N
        #quotient vR, vQ, vN, 9, 60
        #begins 70
        #writes vQ
        #begins 80              ; R=R-Q*N
        #takes vR, vR, vQ, vN, 10, 80
        #begins 90
        #counts vI
        #begins 100
        lda vI+1
        bne F100
        lda vI
        cmp #21
        bcs L110
J50     jmp L50
F100    bmi J50
        bpl L110
J80     jmp S80
        #cold 70
        #cold 80
        #cold 90
        #cold 100
        #begins 110
        #ends
        #begins 120             ; N=N+11
        clc
        lda vN
        adc #11
        sta vN
        bcc +
        inc vN+1
+
        #begins 130             ; IF N<=800 GOTO 20
        lda vN+1
        bmi J20
        cmp #>801
        bcc J20
        bne L140
        lda vN
        cmp #<801
        bcs L140
J20     jmp L20
        #begins 140
        rts
        #cold 110
        #cold 120
        #cold 130
        #cold 140
        #cold 20
        #cold 30
        #cold 40
S60     #setline 60
        #copies LEFT, vR
        #copies RIGHT, vN
        jsr DIVIDE
        #copies vQ, LEFT
        jmp L70
S80     #products vQ, vN
        sec
        lda vR
        sbc RESULT
        sta vR
        lda vR+1
        sbc RESULT+1
        sta vR+1
        jmp L90
        #behind 140
        .word 1, L1, 10, L10, 20, L20, 30, L30, 40, L40, 50, L50, 60, L60, 70, L70, 80, L80, 90, L90, 100, L100, 110, L110, 120, L120, 130, L130, 140, L140
