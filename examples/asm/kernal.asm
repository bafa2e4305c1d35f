; What the ROM does for a program, and a routine over it.

chrin   = $ffcf                 ; A is the next byte that is typed
chrout  = $ffd2                 ; sends the byte in A
return  = 13
pointer = $fb

; sends the text at X (low byte) and Y (high byte), up to a 0
print   stx pointer
        sty pointer+1
        ldy #0
@next   lda (pointer),y
        beq @done
        jsr chrout
        iny
        bne @next
@done   rts
