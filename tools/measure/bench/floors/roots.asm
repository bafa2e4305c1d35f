        .include "rules.inc"
        #begfar 1
        #begfar 10
        ldx #1
        stx vN
        dex
        stx vN+1
        #begfar 20
        #copies vR, vN
        #begfar 30              ; A=(R+N/R)/2
        ldx vR+1
        beq +
J30     jmp S30
+       ldx vR
        beq J30
        bmi J30
        stx RIGHT
        lda vN
        sta LEFT
        lda vN+1
        cmp RIGHT
        bcs J30
        .rept 8
        asl LEFT
        rol a
        cmp RIGHT
        bcc +
        sbc RIGHT
        inc LEFT
+
        .endrept
        lda LEFT
        clc
        adc vR
        ror a
        sta vA
        lda #0
        sta vA+1
        #begins 40              ; IF A>=R GOTO 70
        lda vA
        cmp vR
        lda vA+1
        sbc vR+1
        bvc +
        eor #$80
+       bpl J70
        #begins 50
        #copies vR, vA
        #begins 60
        jmp L30
J70     jmp L70
        #cold 40
        #cold 50
        #cold 60
S30     #setline 30
        #copies LEFT, vN
        #copies RIGHT, vR
        jsr DIVIDE
        clc
        lda LEFT
        adc vR
        sta vA
        lda LEFT+1
        adc vR+1
        sta vA+1
        bpl +
        #counts vA
        lda vA+1
+       cmp #$80
        ror vA+1
        ror vA
        jmp L40
        #begins 70
        #adds vS, vR
        #begins 80
        #counts vN
        #begins 90              ; IF N<=300 GOTO 20
        lda vN+1
        bmi J20
        cmp #>301
        bcc J20
        bne L100
        lda vN
        cmp #<301
        bcs L100
J20     jmp L20
        #begins 100
        #prints vS
        #begins 110
        rts
        #cold 70
        #cold 80
        #cold 90
        #cold 100
        #cold 110
        #cold 1
        #cold 10
        #cold 20
        #cold 30
        #behind 110
        .word 1, L1, 10, L10, 20, L20, 30, L30, 40, L40, 50, L50, 60, L60, 70, L70, 80, L80, 90, L90, 100, L100, 110, L110
