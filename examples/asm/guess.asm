; Guess a number from 0 to 99. Each guess is typed as digits and a return; the answer is LESS, MORE or RIGHT.

*       = $c000

        lda #42                 ; the number: put another one here
        sta secret
ask     ldx #<asking
        ldy #>asking
        jsr print
        jsr number
        lda guess
        cmp secret
        beq right
        bcc more
        ldx #<less_text
        ldy #>less_text
        jsr print
        jmp ask
more    ldx #<more_text
        ldy #>more_text
        jsr print
        jmp ask
right   ldx #<right_text
        ldy #>right_text
        jmp print

; reads digits up to a return: GUESS is their number, modulo 256
number  lda #0
        sta guess
@next   jsr chrin
        cmp #return
        beq @done
        cmp #'0'
        bcc @next               ; all but digits is passed over
        cmp #'9'+1
        bcs @next
        and #$0f
        pha
        lda guess               ; ten times: eight times and two times
        asl
        sta guess
        asl
        asl
        clc
        adc guess
        sta guess
        pla
        clc
        adc guess
        sta guess
        jmp @next
@done   rts

asking  .text return,"YOUR GUESS? ",0
less_text .text return,"LESS",0
more_text .text return,"MORE",0
right_text .text return,"RIGHT",return,0

secret  .byte 0
guess   .byte 0

        .include "kernal.asm"
