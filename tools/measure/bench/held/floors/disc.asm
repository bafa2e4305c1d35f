        .include "rules.inc"
        #begins 1
        #begins 10
        #sets vR, 10
        #begins 20              ; Y=-R
        #negates vY, vR
        #begins 30              ; X=-R
        #negates vX, vR
        jmp L40
        #cold 1
        #cold 10
        #cold 20
        #cold 30
        #cold 40
J40     jmp S40
        #begins 40              ; IF X*X+Y*Y<=R*R GOTO 70
        ldx vX
        lda vX+1
        beq _right
        cmp #$ff
        bne J40
        lda NQLO,x
        sta LEFT
        lda NQHI,x
        jmp _y
_right  lda SQLO,x
        sta LEFT
        lda SQHI,x
_y      sta LEFT+1
        ldx vY
        lda vY+1
        beq _down
        cmp #$ff
        bne J40
        lda NQLO,x
        clc
        adc LEFT
        sta LEFT
        lda NQHI,x
        jmp _sum
_down   lda SQLO,x
        clc
        adc LEFT
        sta LEFT
        lda SQHI,x
_sum    adc LEFT+1
        sta LEFT+1
        ldx vR
        lda vR+1
        bne J40
        lda SQLO,x
        cmp LEFT
        lda SQHI,x
        sbc LEFT+1
        bvc +
        eor #$80
+       bpl L70
        #begins 50              ; PRINT ".";
        #sends "."
        #begins 60
        jmp L90
        #cold 50
        #cold 60
        #begins 70              ; PRINT "*";
        #sends "*"
        #begins 80
        #counts vN
        #begins 90
        #counts vX
        #begins 100             ; IF X<=R GOTO 40
        #compares vR, vX
        bmi J110
        jmp L40
J110    jmp L110
        #cold 70
        #cold 80
        #cold 90
        #cold 100
S40     #products vX, vX
        #copies WANTED, RESULT
        #products vY, vY
        #adds WANTED, RESULT
        #products vR, vR
        #compares RESULT, WANTED
        bmi +
        jmp L70
+       jmp L50
        #begins 110
        #ends
        #begins 120
        #counts vY
        #begins 130             ; IF Y<=R GOTO 30
        #compares vR, vY
        bmi L140
        jmp L30
        #begins 140
        #prints vN
        #begins 150
        rts
        #cold 110
        #cold 120
        #cold 130
        #cold 140
        #cold 150
        #behind 150
        .include "squares.inc"
; the squares of 256 to 1, for the low bytes of -256 to -1
NQLO    .byte <((256 - range(256)) ** 2)
NQHI    .byte >((256 - range(256)) ** 2)
        .word 1, L1, 10, L10, 20, L20, 30, L30, 40, L40, 50, L50, 60, L60, 70, L70, 80, L80, 90, L90, 100, L100, 110, L110, 120, L120, 130, L130
        .word 140, L140, 150, L150
