        .include "rules.inc"
        #begfar 1
        #begfar 10
        #sets vD, 1
        #begfar 20              ; PRINT D;". ON THE ";
        #writes vD
        #says ONTHE
        #begfar 30              ; GOSUB 200+10*D
        ldx NOTES
        cpx #$f4
        bcs J30
        lda vD+1
        bne J30
        ldy vD
        beq J30
        cpy #13
        bcs J30
        lda #<L40
        sta NLOW,x
        lda #>L40
        sta NHIGH,x
        inc NOTES
        lda OLOW,y
        sta LEFT
        lda OHIGH,y
        sta LEFT+1
        jmp (LEFT)
J30     jmp S30
J50     jmp S50
        #begfar 40
        #says DAY
        #ends
        #begfar 50              ; GOTO 620-10*D
        lda vD+1
        bne J50
        ldy vD
        cpy #13
        bcs J50
        lda GLOW,y
        sta LEFT
        lda GHIGH,y
        sta LEFT+1
        jmp (LEFT)
        #begfar 60
        #counts vD
        #begfar 70
        #below vD, 13, 20
        #begfar 80
        rts
        #cold 1
        #cold 10
        #cold 20
        #cold 30
        #cold 40
        #cold 50
        #cold 60
        #cold 70
        #cold 80
; 10*D to LEFT, with its high byte in A
ten     #copies LEFT, vD
        lda #10
        sta RIGHT
        lda #0
        sta RIGHT+1
        jsr MULTIPLY
        lda RESULT+1
        rts
N30     ldx #30
        ldy #0
        lda #1
        jmp FAULTLINE
N50     ldx #50
        ldy #0
        lda #1
        jmp FAULTLINE
S30     jsr ten                 ; the number, its line, and only then the note
        clc
        lda RESULT
        adc #200
        sta WANTED
        lda RESULT+1
        adc #0
        sta WANTED+1
        ldy #0
-       lda TABLE,y
        cmp WANTED
        bne +
        lda TABLE+1,y
        cmp WANTED+1
        beq found
+       iny
        iny
        iny
        iny
        cpy #TABLES-TABLE
        bne -
        jmp N30
found   sty SCRATCH
        #setline 30
        lda #<L40
        sta LEFT
        lda #>L40
        sta LEFT+1
        jsr PUSH
        ldy SCRATCH
        lda TABLE+2,y
        sta LEFT
        lda TABLE+3,y
        sta LEFT+1
        jmp (LEFT)
S50     jsr ten
        sec
        lda #<620
        sbc RESULT
        sta WANTED
        lda #>620
        sbc RESULT+1
        sta WANTED+1
        #searches N50
        #begins 210
        #sends "FIRST"
        #begins 215
        #returns 215
        #cold 210
        #cold 215
        #begins 220
        #sends "SECOND"
        #begins 225
        #returns 225
        #cold 220
        #cold 225
        #begins 230
        #sends "THIRD"
        #begins 235
        #returns 235
        #cold 230
        #cold 235
        #begins 240
        #sends "FOURTH"
        #begins 245
        #returns 245
        #cold 240
        #cold 245
        #begins 250
        #sends "FIFTH"
        #begins 255
        #returns 255
        #cold 250
        #cold 255
        #begins 260
        #sends "SIXTH"
        #begins 265
        #returns 265
        #cold 260
        #cold 265
        #begins 270
        #sends "SEVENTH"
        #begins 275
        #returns 275
        #cold 270
        #cold 275
        #begins 280
        #sends "EIGHTH"
        #begins 285
        #returns 285
        #cold 280
        #cold 285
        #begins 290
        #sends "NINTH"
        #begins 295
        #returns 295
        #cold 290
        #cold 295
        #begins 300
        #sends "TENTH"
        #begins 305
        #returns 305
        #cold 300
        #cold 305
        #begins 310
        #sends "ELEVENTH"
        #begins 315
        #returns 315
        #cold 310
        #cold 315
        #begins 320
        #sends "TWELFTH"
        #begins 325
        #returns 325
        #cold 320
        #cold 325
        #begfar 500
        #says T500
        #ends
        #begfar 510
        #says T510
        #ends
        #begfar 520
        #says T520
        #ends
        #begfar 530
        #says T530
        #ends
        #begfar 540
        #says T540
        #ends
        #begfar 550
        #says T550
        #ends
        #begfar 560
        #says T560
        #ends
        #begfar 570
        #says T570
        #ends
        #begfar 580
        #says T580
        #ends
        #begfar 590
        #says T590
        #ends
        #begfar 600
        #says T600
        #ends
        #begfar 605
        #sends "AND "
        #begfar 610
        #says T610
        #begfar 620
        #sends "."
        #ends
        #begfar 630
        #ends
        #begfar 640
        jmp L60
        #cold 500
        #cold 510
        #cold 520
        #cold 530
        #cold 540
        #cold 550
        #cold 560
        #cold 570
        #cold 580
        #cold 590
        #cold 600
        #cold 605
        #cold 610
        #cold 620
        #cold 630
        #cold 640
        #behind 640
ONTHE   .text ". ON THE "
DAY     .text " DAY OF CHRISTMAS MY TRUE LOVE GAVE TO ME"
T500    .text "TWELVE DRUMMERS DRUMMING,"
T510    .text "ELEVEN PIPERS PIPING,"
T520    .text "TEN LORDS A-LEAPING,"
T530    .text "NINE LADIES DANCING,"
T540    .text "EIGHT MAIDS A-MILKING,"
T550    .text "SEVEN SWANS A-SWIMMING,"
T560    .text "SIX GEESE A-LAYING,"
T570    .text "FIVE GOLD RINGS,"
T580    .text "FOUR CALLING BIRDS,"
T590    .text "THREE FRENCH HENS,"
T600    .text "TWO TURTLE DOVES,"
T610    .text "A PARTRIDGE IN A PEAR TREE"
ordinals = [0, L210, L220, L230, L240, L250, L260, L270, L280, L290, L300, L310, L320]
OLOW    .byte <ordinals
OHIGH   .byte >ordinals
gifts = [L620, L610, L600, L590, L580, L570, L560, L550, L540, L530, L520, L510, L500]
GLOW    .byte <gifts
GHIGH   .byte >gifts
TABLE   .word 1, L1, 10, L10, 20, L20, 30, L30, 40, L40, 50, L50, 60, L60, 70, L70, 80, L80, 210, L210, 215, L215, 220, L220, 225, L225, 230, L230, 235, L235, 240, L240
        .word 245, L245, 250, L250, 255, L255, 260, L260, 265, L265, 270, L270, 275, L275, 280, L280, 285, L285, 290, L290, 295, L295, 300, L300, 305, L305, 310, L310, 315, L315, 320, L320
        .word 325, L325, 500, L500, 510, L510, 520, L520, 530, L530, 540, L540, 550, L550, 560, L560, 570, L570, 580, L580, 590, L590, 600, L600, 605, L605, 610, L610, 620, L620, 630, L630
        .word 640, L640
TABLES
