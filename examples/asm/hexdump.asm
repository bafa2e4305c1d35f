; A hexadecimal dump of a piece of memory, eight bytes in a row, with the signs that they are beside them.
; 64 bytes are shown, from FIRST on: this program itself.

chrout  = $ffd2                 ; sends the byte in A
return  = 13
row     = 8                     ; bytes in a row
rows    = 8
place   = $fb                   ; where the next row begins, a word in page zero

*       = $c000

first   lda #<first
        sta place
        lda #>first
        sta place+1
        lda #rows
        sta left
nextrow jsr address
        jsr bytes
        jsr signs
        lda #return
        jsr chrout
        clc                     ; on by a row
        lda place
        adc #row
        sta place
        bcc same
        inc place+1
same    dec left
        bne nextrow
        rts

; the address of the row, four digits
address lda place+1
        jsr byte
        lda place
        ; falls into byte

; A in two digits
byte    pha
        lsr
        lsr
        lsr
        lsr
        jsr digit
        pla
        and #%00001111
digit   cmp #10
        bcc decimal
        adc #'A'-'9'-2          ; the carry is set: one more
decimal adc #'0'
        jmp chrout

; the bytes of the row, each behind a space
bytes   ldy #0
@next   lda #' '
        jsr chrout
        lda (place),y
        jsr byte
        iny
        cpy #row
        bne @next
        rts

; the signs that they are; a full stop for all that is none
signs   lda #' '
        jsr chrout
        ldy #0
@next   lda (place),y
        cmp #' '
        bcc @none
        cmp #'Z'+1
        bcc @sign
@none   lda #'.'
@sign   jsr chrout
        iny
        cpy #row
        bne @next
        rts

left    .byte 0                 ; rows that are left
