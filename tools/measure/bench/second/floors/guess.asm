        .include "rules.inc"
        #begfar 1
        #begfar 10
        #says THINK
        #ends
        #begfar 20              ; X=RND(100)+1
        #draws
        clc
        adc #1
        sta vX
        lda #0
        sta vX+1
        #begfar 30
        #sets vT, 0
        #begfar 40
        #says YOURS
        #begfar 50              ; INPUT G
        #setline 50
        jsr INPUT
        #copies vG, LEFT
        #begfar 60
        #counts vT
        #begfar 70              ; IF G<X PRINT "TOO LOW"
        #compares vG, vX
        bpl L80
        #sends "TOO LOW"
        #ends
        #begins 80              ; IF G>X PRINT "TOO HIGH"
        #compares vX, vG
        bpl L90
        #sends "TOO HIGH"
        #ends
        #begins 90              ; IF G<>X GOTO 40
        lda vG
        cmp vX
        bne J40
        lda vG+1
        cmp vX+1
        beq L100
J40     jmp L40
        #cold 60
        #cold 70
        #cold 80
        #cold 90
        #begfar 100
        #says RIGHTLY
        #writes vT
        #sends " GUESSES"
        #ends
        #begfar 110
        #adds vS, vT
        #begfar 120
        #counts vP
        #begfar 130
        #below vP, 10, 10
        #begfar 140
        #writes vS
        #says GUESSES
        #writes vP
        #sends " NUMBERS"
        #ends
        #begins 150
        rts
        #cold 100
        #cold 110
        #cold 120
        #cold 130
        #cold 140
        #cold 150
        #cold 1
        #cold 10
        #cold 20
        #cold 30
        #cold 40
        #cold 50
        #behind 150
THINK   .text "I THINK OF A NUMBER FROM 1 TO 100."
YOURS   .text "YOUR GUESS"
RIGHTLY .text "RIGHT, WITH "
GUESSES .text " GUESSES FOR "
        .word 1, L1, 10, L10, 20, L20, 30, L30, 40, L40, 50, L50, 60, L60, 70, L70, 80, L80, 90, L90, 100, L100, 110, L110, 120, L120, 130, L130
        .word 140, L140, 150, L150
