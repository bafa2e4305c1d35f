; The primes below 256 by the sieve of Eratosthenes: a byte for each number, which is not 0 once the number is known
; to be a multiple.

chrout  = $ffd2                 ; sends the byte in A
space   = ' '

*       = $c000

        ldx #0                  ; no number is a multiple yet
        txa
clear   sta sieve,x
        inx
        bne clear

        ldx #2
next    lda sieve,x
        bne done                ; a multiple
        jsr show
        stx step
        txa
mark    clc                     ; marks the multiples, up to 255
        adc step
        bcs done
        tay
        lda #1
        sta sieve,y
        tya
        bne mark                ; always
done    inx
        bne next
        rts

; X in decimal, and a space; X stays
show    stx rest
        ldy #0                  ; the digit that is due
@place  lda #'0'-1
        sta digit
@count  inc digit
        sec
        lda rest
        sbc power,y
        sta rest
        bcs @count
        adc power,y             ; one time too many
        sta rest
        lda digit
        cpy #2
        beq @send               ; the last digit is always shown
        cmp #'0'
        bne @begun
        lda begun               ; no leading zeros
        beq @skip
        lda digit
@begun  sta begun
@send   jsr chrout
@skip   iny
        cpy #3
        bne @place
        lda #0
        sta begun
        lda #space
        jmp chrout

power   .byte 100,10,1
step    .byte 0
rest    .byte 0
digit   .byte 0
begun   .byte 0                 ; not 0 once a digit was shown

        .align 256
sieve   .fill 256
