        .include "rules.inc"
        #begfar 1
        #begfar 10
        #sets vN, 2
        #begfar 20
        #sets vS, 1
        #begfar 30
        #sets vD, 2
        #begfar 40              ; IF D>N/2 GOTO 80
        lda vN+1
        ora vD+1
        bne J40
        lda vN
        lsr a
        cmp vD
        bcc J80
        #begfar 50              ; IF N/D*D=N S=S+D
        #remB vN, vD, 50
        tax
        bne L60
        #adds vS, vD
        #begins 60
        #counts vD
        #begins 70
        jmp L40
J40     jmp S40
J80     jmp L80
J50     jmp S50
        #remR vN, vD, 50
        #cold 60
        #cold 70
        #cold 50
        #cold 40
        #cold 1
        #cold 10
        #cold 20
        #cold 30
S50     #setline 50
        #copies LEFT, vN
        #copies RIGHT, vD
        jsr DIVIDE
        lda RESULT
        ora RESULT+1
        bne +
        #adds vS, vD
+       jmp L60
S40     #copies LEFT, vN        ; the half, rounded toward zero
        lda LEFT+1
        bpl +
        #counts LEFT
+       lda LEFT+1
        cmp #$80
        ror LEFT+1
        ror LEFT
        #compares LEFT, vD
        bpl +
        jmp L80
+
        jmp L50
        #begfar 80              ; IF S=N PRINT N;" IS PERFECT"
        lda vS
        cmp vN
        bne L90
        lda vS+1
        cmp vN+1
        bne L90
        #writes vN
        #says PERFECT
        #ends
        #begfar 90              ; IF S>N R=R+1
        #compares vN, vS
        bpl L100
        #counts vR
        #begfar 100             ; IF S<N P=P+1
        #compares vS, vN
        bpl L110
        #counts vP
        #begfar 110
        #counts vN
        #begfar 120
        #below vN, 61, 20
        #begins 130
        #writes vR
        #says RICH
        #writes vP
        #says POOR
        #ends
        #begins 140
        rts
        #cold 80
        #cold 90
        #cold 100
        #cold 110
        #cold 120
        #cold 130
        #cold 140
        #behind 140
PERFECT .text " IS PERFECT"
RICH    .text " ARE RICH, "
POOR    .text " ARE POOR"
        .word 1, L1, 10, L10, 20, L20, 30, L30, 40, L40, 50, L50, 60, L60, 70, L70, 80, L80, 90, L90, 100, L100, 110, L110, 120, L120, 130, L130, 140, L140
