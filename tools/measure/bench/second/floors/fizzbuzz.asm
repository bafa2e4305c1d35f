        .include "rules.inc"
; IF N/\1*\1=N GOTO \2, where 16 is 1 modulo \1: by the sum of the digits to base 16, else at M\3
multiple .segment
        lda vN+1
        cmp #16
        bcs J\3
        ldx vN
        adc SUMS,x
        tax
        lda \1,x
        beq \2
        .endsegment
; the same by Divide
divides .segment
        #copies LEFT, vN
        lda #\1
        sta RIGHT
        lda #0
        sta RIGHT+1
        jsr DIVIDE
        lda RESULT
        ora RESULT+1
        bne +
        jmp L\2
+       jmp L\3
        .endsegment
        #begfar 1
        #begfar 10
        #sets vN, 1
        jmp L20
J20     jmp M20
J30     jmp M30
J40     jmp M40
J90     jmp L90
J110    jmp L110
J130    jmp L130
        #cold 1
        #cold 10
        #cold 20
        #cold 30
        #begfar 20
        #multiple REST15, J90, 20
        #begins 30
        #multiple REST3, J110, 30
        #begins 40
        #multiple REST5, J130, 40
        #begins 50
        #prints vN
        #begins 60
        #counts vN
        #begins 70              ; IF N<=300 GOTO 20
        lda vN+1
        bmi _again
        cmp #>301
        bcc _again
        bne L80
        lda vN
        cmp #<301
        bcs L80
_again  jmp L20
        #begins 80
        rts
        #cold 40
        #cold 50
        #cold 60
        #cold 70
        #cold 80
M20     #divides 15, 90, 30
M30     #divides 3, 110, 40
M40     #divides 5, 130, 50
        #begins 90
        #sends "FIZZBUZZ"
        #ends
        #begins 100
        jmp L60
        #begins 110
        #sends "FIZZ"
        #ends
        #begins 120
        jmp L60
        #cold 90
        #cold 100
        #cold 110
        #cold 120
        #begins 130
        #sends "BUZZ"
        #ends
        #begins 140
        jmp L60
        #cold 130
        #cold 140
        #behind 140
        .include "sums.inc"
all = range(46)
REST15  .byte all % 15
REST3   .byte all % 3
REST5   .byte all % 5
        .word 1, L1, 10, L10, 20, L20, 30, L30, 40, L40, 50, L50, 60, L60, 70, L70, 80, L80, 90, L90, 100, L100, 110, L110, 120, L120, 130, L130, 140, L140
