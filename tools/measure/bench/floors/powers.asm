        .include "rules.inc"
; N less a word, if N is no less: X is N's low byte
less    .segment
        cpx #<\1
        lda vN+1
        sbc #>\1
        bcc +
        sta vN+1
        txa
        sbc #<\1
        sta vN
        tax
+
        .endsegment
        #begfar 1
        #begfar 10
        ldx #1
        stx vN
        dex
        stx vN+1
        #begfar 20
        ldx #1
        stx vI
        dex
        stx vI+1
        #begfar 30              ; N=N*7
        lda vN+1
        sta LEFT+1
        lda vN
        asl a
        rol LEFT+1
        asl a
        rol LEFT+1
        asl a
        rol LEFT+1
        sec
        sbc vN
        tax
        lda LEFT+1
        sbc vN+1
        sta vN+1
        stx vN
        #begfar 40              ; N=N-N/1009*1009
        lda vN+1
        cmp #>(8*1009)
        bcc +
        jmp S40
+
        ldx vN
        #less 4*1009
        #less 2*1009
        #less 1009
        #begins 50
        #adds vS, vN
        #begins 60
        #counts vI
        #begins 70              ; IF I<=500 GOTO 30
        lda vI+1
        bmi J30
        cmp #>501
        bcc J30
        bne J80
        lda vI
        cmp #<501
        bcs J80
J30     jmp L30
J80     jmp L80
        #cold 40
        #cold 50
        #cold 60
        #cold 70
S40     #setline 40
        #copies LEFT, vN
        lda #<1009
        sta RIGHT
        lda #>1009
        sta RIGHT+1
        jsr DIVIDE
        #rest vN
        stx vN
        sty vN+1
        jmp L50
        #begins 80
        #prints vS
        #begins 90
        rts
        #cold 80
        #cold 90
        #cold 1
        #cold 10
        #cold 20
        #cold 30
        #behind 90
        .word 1, L1, 10, L10, 20, L20, 30, L30, 40, L40, 50, L50, 60, L60, 70, L70, 80, L80, 90, L90
