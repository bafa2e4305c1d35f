        .include "rules.inc"
        #begins 1
        #begins 2
        #begins 10              ; K=RND(3)
        lda SEEDED
        bne +
        #sets SEED, 1
        inc SEEDED
+       jsr DRAW                ; the sum of its digits to base 16 is the same modulo 3
        tax
        ldy LEFT
        lda SUMS,x
        clc
        adc SUMS,y
        tax
        lda REST3,x
        sta vK
        lda #0
        sta vK+1
        #begins 20              ; GOTO 100+100*S+20*K
        lda vS+1
        ora vK+1
        bne J20
        lda vK
        cmp #3
        bcs J20
        lda vS
        cmp #5
        bcs J20
        asl a
        asl a
        ora vK
        tay
        lda GLOW,y
        sta LEFT
        lda GHIGH,y
        sta LEFT+1
        jmp (LEFT)
J20     jmp S20
        #cold 1
        #cold 2
        #cold 10
        #cold 20
        #begins 100
        #sets vS, 1
        #begins 110
        jmp L700
        #cold 100
        #cold 110
        #begins 120
        #sets vS, 2
        #begins 130
        jmp L700
        #cold 120
        #cold 130
        #begins 140
        jmp L650
        #cold 140
        #begins 200
        #sets vS, 2
        #begins 210
        jmp L700
        #cold 200
        #cold 210
        #begins 220
        #sets vS, 3
        #begins 230
        jmp L700
        #cold 220
        #cold 230
        #begins 240
        clc
        lda vC
        adc #5
        sta vC
        bcc +
        inc vC+1
+
        #begins 250
        jmp L650
        #cold 240
        #cold 250
        #begins 300
        #sets vS, 3
        #begins 310
        jmp L700
        #cold 300
        #cold 310
        #begins 320
        #sets vS, 4
        #begins 330
        jmp L700
        #cold 320
        #cold 330
        #begins 340
        clc
        lda vC
        adc #10
        sta vC
        bcc +
        inc vC+1
+
        #begins 350
        jmp L650
        #cold 340
        #cold 350
        #begins 400
        #sets vS, 4
        #begins 410
        jmp L700
        #cold 400
        #cold 410
        #begins 420
        jmp L650
        #cold 420
        #begins 440
        clc
        lda vC
        adc #15
        sta vC
        bcc +
        inc vC+1
+
        #begins 450
        jmp L650
        #cold 440
        #cold 450
        #begins 500
        jmp L650
        #cold 500
        #begins 520
        clc
        lda vC
        adc #5
        sta vC
        bcc +
        inc vC+1
+
        #begins 530
        jmp L650
        #cold 520
        #cold 530
        #begins 540
        clc
        lda vC
        adc #20
        sta vC
        bcc +
        inc vC+1
+
        #begins 550
        jmp L650
        #cold 540
        #cold 550
N20     ldx #20
        ldy #0
        lda #1
        jmp FAULTLINE
S20     #copies LEFT, vK
        #sets RIGHT, 20
        jsr MULTIPLY
        #sets WANTED, 100
        #adds WANTED, RESULT
        #copies LEFT, vS
        #sets RIGHT, 100
        jsr MULTIPLY
        #adds WANTED, RESULT
        #searches N20
        #cold 650
        #cold 660
        #cold 700
        #cold 710
        #begins 650
        #sets vS, 0
        #begins 660
        #counts vD
        #begins 700
        #counts vN
        #begins 710             ; IF N<200 GOTO 10
        #below vN, 200, 10
        #begfar 720             ; PRINT D;" DRINKS, ";C;" CENTS OF CHANGE"
        #writes vD
        #says DRINKS
        #writes vC
        #says CHANGE
        #ends
        #begfar 730             ; PRINT 5*S;" CENTS ARE LEFT IN IT"
        #copies LEFT, vS
        #sets RIGHT, 5
        jsr MULTIPLY
        #writes RESULT
        #says THERE
        #ends
        #begins 740
        rts
        #cold 720
        #cold 730
        #cold 740
        #behind 740
DRINKS  .text " DRINKS, "
CHANGE  .text " CENTS OF CHANGE"
THERE   .text " CENTS ARE LEFT IN IT"
        .include "sums.inc"
REST3   .byte range(61) % 3
states = [L100, L120, L140, L20, L200, L220, L240, L20, L300, L320, L340, L20, L400, L420, L440, L20, L500, L520, L540]
GLOW    .byte <states
GHIGH   .byte >states
TABLE   .word 1, L1, 2, L2, 10, L10, 20, L20, 100, L100, 110, L110, 120, L120, 130, L130, 140, L140, 200, L200, 210, L210, 220, L220, 230, L230, 240, L240, 250, L250, 300, L300
        .word 310, L310, 320, L320, 330, L330, 340, L340, 350, L350, 400, L400, 410, L410, 420, L420, 440, L440, 450, L450, 500, L500, 520, L520, 530, L530, 540, L540, 550, L550, 650, L650
        .word 660, L660, 700, L700, 710, L710, 720, L720, 730, L730, 740, L740
TABLES
