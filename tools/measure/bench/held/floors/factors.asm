        .include "rules.inc"
        #begfar 1
        #begfar 10
        #sets vN, 1976
        #begfar 20
        #writes vN
        #sends " ="
        #begfar 30
        #copies vK, vN
        #begfar 40
        #sets vD, 2
        jmp L50
        #cold 1
        #cold 10
        #cold 20
        #cold 30
        #cold 40
        #cold 50
        #begins 50              ; IF K/D*D=K GOTO 90
        #remB vK, vD, 50
        tax
        beq J90
        #begins 60              ; IF D*D>K GOTO 130
        lda vD+1
        bne J60
        ldx vD
        lda vK
        cmp SQLO,x
        lda vK+1
        sbc SQHI,x
        bvc +
        eor #$80
+       bmi J130
        #begins 70
        #counts vD
        #begins 80
        jmp L50
J90     jmp L90
J130    jmp L130
J50     jmp S50
        #remR vK, vD, 50
        #cold 60
        #cold 70
        #cold 80
J60     jmp S60
S50     #setline 50
        #copies LEFT, vK
        #copies RIGHT, vD
        jsr DIVIDE
        lda RESULT
        ora RESULT+1
        beq J90
        jmp L60
S60     #products vD, vD
        #compares vK, RESULT
        bpl +
        jmp L130
+       jmp L70
        #begfar 90              ; PRINT " ";D;
        #sends " "
        #writes vD
        #begfar 100             ; K=K/D
        #setline 100
        #copies LEFT, vK
        #copies RIGHT, vD
        jsr DIVIDE
        #copies vK, LEFT
        #begins 110             ; IF K>1 GOTO 50
        lda vK+1
        bmi L120
        bne A50
        lda vK
        cmp #2
        bcc L120
A50     jmp L50
        #cold 90
        #cold 100
        #cold 110
        #begins 120
        jmp L140
        #cold 120
        #begins 130             ; PRINT " ";K;
        #sends " "
        #writes vK
        #begins 140
        #ends
        #begins 150
        #counts vN
        #begins 160             ; IF N<=2000 GOTO 20
        lda vN+1
        bmi J20
        cmp #>2001
        bcc J20
        bne L170
        lda vN
        cmp #<2001
        bcs L170
J20     jmp L20
        #begins 170
        rts
        #cold 130
        #cold 140
        #cold 150
        #cold 160
        #cold 170
        #behind 170
        .include "squares.inc"
        .word 1, L1, 10, L10, 20, L20, 30, L30, 40, L40, 50, L50, 60, L60, 70, L70, 80, L80, 90, L90, 100, L100, 110, L110, 120, L120, 130, L130, 140, L140, 150, L150
        .word 160, L160, 170, L170
