        .include "rules.inc"
; \1 = 2 * \1 + X
twice   .segment
        lda \1
        asl a
        tax
        lda \1+1
        rol a
        tay
        txa
        clc
        adc vX
        sta \1
        tya
        adc vX+1
        sta \1+1
        .endsegment
; the rest of half of \1 to A and X
odd     .segment
        lda \1
        and #1
        ldx #0
        ldy \1+1
        bpl +
        tay
        beq +
        lda #$ff
        tax
+
        .endsegment
; \1 = \1 / 2
halves  .segment
        lda \1+1
        bpl +
        #counts \1
+       lda \1+1
        cmp #$80
        ror \1+1
        ror \1
        .endsegment
        #begins 1
        #begins 10
        #sets vS, 1
        #begins 20
        #counts vN
        #begins 30              ; GOTO 100*S+50*X
        lda vS+1
        ora vX+1
        bne J30
        lda vX
        cmp #2
        bcs J30
        lda vS
        beq J30
        cmp #5
        bcs J30
        asl a
        ora vX
        tay
        lda GLOW,y
        sta LEFT
        lda GHIGH,y
        sta LEFT+1
        jmp (LEFT)
J30     jmp S30
        #cold 1
        #cold 10
        #cold 20
        #cold 30
        #begins 100
        #sets vX, 1
        #begins 110
        #sets vS, 2
        #begins 120
        jmp L500
        #cold 100
        #cold 110
        #cold 120
        #begins 150
        #sets vX, 1
        #begins 160
        #sets vS, 2
        #begins 170
        jmp L600
        #cold 150
        #cold 160
        #cold 170
        #begins 200
        #sets vX, 1
        #begins 210
        #sets vS, 1
        #begins 220
        jmp L600
        #cold 200
        #cold 210
        #cold 220
        #begins 250
        #sets vX, 0
        #begins 260
        #sets vS, 3
        #begins 270
        jmp L600
        #cold 250
        #cold 260
        #cold 270
        #begins 300
        #sets vX, 1
        #begins 310
        jmp L700
        #cold 300
        #cold 310
        #begins 350
        #sets vX, 1
        #begins 360
        #sets vS, 4
        #begins 370
        jmp L600
        #cold 350
        #cold 360
        #cold 370
        #begins 400
        #sets vX, 1
        #begins 410
        jmp L500
        #cold 400
        #cold 410
        #begins 450
        #sets vX, 0
        #begins 460
        #sets vS, 1
        #begins 470
        jmp L500
        #cold 450
        #cold 460
        #cold 470
        #begins 500
        #twice vL
        #begins 510
        #odd vR
        sta vX
        stx vX+1
        #begins 520
        #halves vR
        #begins 530
        jmp L20
        #cold 500
        #cold 510
        #cold 520
        #cold 530
        #begins 600
        #twice vR
        #begins 610
        #odd vL
        sta vX
        stx vX+1
        #begins 620
        #halves vL
        #begins 630
        jmp L20
        #cold 600
        #cold 610
        #cold 620
        #cold 630
N30     ldx #30
        ldy #0
        lda #1
        jmp FAULTLINE
S30     #copies LEFT, vX
        #sets RIGHT, 50
        jsr MULTIPLY
        #copies WANTED, RESULT
        #copies LEFT, vS
        #sets RIGHT, 100
        jsr MULTIPLY
        #adds WANTED, RESULT
        #searches N30
        #begfar 700
        #writes vN
        #sends " STEPS"
        #ends
        #begfar 710             ; IF L+R+X=0 GOTO 770
        #copies LEFT, vL
        #adds LEFT, vR
        #adds LEFT, vX
        lda LEFT
        ora LEFT+1
        bne +
        jmp L770
+
        #begfar 720
        #adds vC, vX
        #begfar 730             ; X=L-L/2*2+R-R/2*2
        #odd vR
        sta LEFT
        stx LEFT+1
        #odd vL
        clc
        adc LEFT
        sta vX
        txa
        adc LEFT+1
        sta vX+1
        #begins 740
        #halves vL
        #begins 750
        #halves vR
        #begins 760
        jmp L710
        #cold 700
        #cold 710
        #cold 720
        #cold 730
        #cold 740
        #cold 750
        #cold 760
        #begins 770
        #writes vC
        #sends " ONES"
        #ends
        #begins 780
        rts
        #cold 770
        #cold 780
        #behind 780
states = [L20, L20, L100, L150, L200, L250, L300, L350, L400, L450]
GLOW    .byte <states
GHIGH   .byte >states
TABLE   .word 1, L1, 10, L10, 20, L20, 30, L30, 100, L100, 110, L110, 120, L120, 150, L150, 160, L160, 170, L170, 200, L200, 210, L210, 220, L220, 250, L250, 260, L260, 270, L270
        .word 300, L300, 310, L310, 350, L350, 360, L360, 370, L370, 400, L400, 410, L410, 450, L450, 460, L460, 470, L470, 500, L500, 510, L510, 520, L520, 530, L530, 600, L600, 610, L610
        .word 620, L620, 630, L630, 700, L700, 710, L710, 720, L720, 730, L730, 740, L740, 750, L750, 760, L760, 770, L770, 780, L780
TABLES
