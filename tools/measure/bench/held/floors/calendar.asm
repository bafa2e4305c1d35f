        .include "rules.inc"
; IF M=\1 D=30, before line \2
short   .segment
        lda vM
        cmp #\1
        bne L\2
        lda vM+1
        bne L\2
        #sets vD, 30
        .endsegment
; \1 modulo \2 to X and Y
modulo  .segment
        #copies LEFT, \1
        lda #<\2
        sta RIGHT
        lda #>\2
        sta RIGHT+1
        jsr DIVIDE
        #rest \1
        .endsegment
        #begins 1
        #begins 2
        #begins 10
        #sets vY, 1970
        #begins 20
        #sets vW, 4
        #begins 30
        #sets vM, 1
        jmp L40
        #cold 1
        #cold 2
        #cold 10
        #cold 20
        #cold 30
        #cold 40
        #cold 50
        #cold 60
        #begins 40
        #sets vD, 31
        #begins 50
        #short 4, 60
        #begins 60
        #short 6, 70
        #begfar 70
        #short 9, 80
        #begfar 80
        #short 11, 90
        #begins 90              ; IF M=2 GOSUB 200
        lda vM
        cmp #2
        bne L100
        lda vM+1
        bne L100
        #calls 200, 100, 90
        #cold 70
        #cold 80
        #cold 90
        #cold 100
J110    jmp S110
J120    jmp S120
        #begins 100             ; F=W+12
        clc
        lda vW
        adc #12
        sta vF
        lda vW+1
        adc #0
        sta vF+1
        #begfar 110             ; IF F-F/7*7=5 PRINT M;"/";Y
        lda vF+1
        bne J110
        ldx vF
        lda REST7,x
        cmp #5
        bne L120
show    #writes vM
        #sends "/"
        #prints vY
        #begfar 120             ; W=W+D-(W+D)/7*7
        lda vW+1
        ora vD+1
        bne J120
        clc
        lda vW
        adc vD
        bcs J120
        tax
        lda REST7,x
        sta vW
        lda #0
        sta vW+1
        #begins 130
        #counts vM
        #begins 140
        #below vM, 13, 40
        #begins 150
        #counts vY
        #begins 160             ; IF Y<2000 GOTO 30
        lda vY+1
        bmi J30
        cmp #>2000
        bcc J30
        bne L170
        lda vY
        cmp #<2000
        bcs L170
J30     jmp L30
        #cold 130
        #cold 140
        #begins 170
        rts
        #cold 110
        #cold 120
        #cold 150
        #cold 160
        #cold 170
S110    #modulo vF, 7
        tya
        bne +
        cpx #5
        bne +
        jmp show
+       jmp L120
S120    #copies WANTED, vW
        #adds WANTED, vD
        #modulo WANTED, 7
        stx vW
        sty vW+1
        jmp L130
        #begins 200
        #sets vD, 28
        #begins 210             ; IF Y/4*4<>Y RETURN
        lda vY
        and #3
        beq L220
        #returns 210
        #cold 200
        #cold 210
        #begfar 220             ; IF Y/100*100<>Y D=29
        #modulo vY, 100
        txa
        bne +
        tya
        beq L230
+       #sets vD, 29
        #begins 230             ; IF Y/400*400=Y D=29
        #modulo vY, 400
        txa
        bne L240
        tya
        bne L240
        #sets vD, 29
        #begins 240
        #returns 240
        #cold 220
        #cold 230
        #cold 240
        #behind 240
REST7   .byte range(256) % 7
        .word 1, L1, 2, L2, 10, L10, 20, L20, 30, L30, 40, L40, 50, L50, 60, L60, 70, L70, 80, L80, 90, L90, 100, L100, 110, L110, 120, L120, 130, L130, 140, L140
        .word 150, L150, 160, L160, 170, L170, 200, L200, 210, L210, 220, L220, 230, L230, 240, L240
