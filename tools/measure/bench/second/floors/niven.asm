        .include "rules.inc"
        #begfar 1
        #begfar 10
        #sets vK, 1
        #begfar 20
        #copies vN, vK
        #begfar 30
        #sets vS, 0
        #begfar 40              ; S=S+N-N/10*10
        #mod10f vN, J40
        clc
        adc vS
        sta vS
        bcc +
        inc vS+1
+
        #begins 50
        #div10 vN, J50
        #begins 60              ; IF N>0 GOTO 40
        lda vN+1
        bmi L70
        ora vN
        beq L70
        jmp L40
J50     jmp S50
J40     jmp S40
        #cold 50
        #cold 60
        #begfar 70              ; IF K/S*S=K PRINT K
        #remB vK, vS, 70
        tax
        bne L80
show    #prints vK
        #begins 80
        #counts vK
        #begins 90
        #below vK, 201, 20
        #begins 100
        rts
J70     jmp S70
        #remR vK, vS, 70
        #cold 70
        #cold 80
        #cold 90
        #cold 100
        #cold 1
        #cold 10
        #cold 20
        #cold 30
        #cold 40
S40     #by10 vN
        #rest vN
        clc
        txa
        adc vS
        sta vS
        tya
        adc vS+1
        sta vS+1
        jmp L50
S50     #by10 vN
        #copies vN, LEFT
        jmp L60
S70     #setline 70
        #copies LEFT, vK
        #copies RIGHT, vS
        jsr DIVIDE
        lda RESULT
        ora RESULT+1
        bne +
        jmp show
+       jmp L80
        #behind 100
        .include "tables10.inc"
        .word 1, L1, 10, L10, 20, L20, 30, L30, 40, L40, 50, L50, 60, L60, 70, L70, 80, L80, 90, L90, 100, L100
