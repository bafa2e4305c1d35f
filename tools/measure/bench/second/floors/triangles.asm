        .include "rules.inc"
; goes on if \1+\2>\3, as bytes, else to line 50
closes  .segment
        lda \3
        sec
        sbc \1
        bcc +
        cmp \2
        bcs L50
+
        .endsegment
; the same as words with a sign, else to J50
closesw .segment
        #copies LEFT, \1
        #adds LEFT, \2
        #compares \3, LEFT
        bpl J50
        .endsegment
        #begfar 1
        #begfar 10
        #sets vA, 1
        #begfar 20
        #sets vB, 1
        #begfar 30
        #sets vC, 1
        #begins 40              ; IF A+B>C IF B+C>A IF C+A>B N=N+1
        lda vA+1
        ora vB+1
        ora vC+1
        bne J40
        #closes vA, vB, vC
        #closes vB, vC, vA
        #closes vC, vA, vB
        #counts vN
        #begins 50
        #counts vC
        #begins 60
        lda vC+1
        bne F60
        lda vC
        cmp #13
        bcc L40
        bcs L70
F60     bmi L40
        bpl L70
J40     jmp S40
        #cold 40
        #cold 50
        #cold 60
        #begins 70
        #counts vB
        #begins 80
        #below vB, 13, 30
        #begins 90
        #counts vA
        #begins 100
        #below vA, 13, 20
        #begins 110
        #prints vN
        #begins 120
        rts
        #cold 70
        #cold 80
        #cold 90
        #cold 100
        #cold 110
        #cold 120
        #cold 1
        #cold 10
        #cold 20
        #cold 30
S40     #closesw vA, vB, vC
        #closesw vB, vC, vA
        #closesw vC, vA, vB
        #counts vN
J50     jmp L50
        #behind 120
        .word 1, L1, 10, L10, 20, L20, 30, L30, 40, L40, 50, L50, 60, L60, 70, L70, 80, L80, 90, L90, 100, L100, 110, L110, 120, L120
