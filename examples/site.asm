; site: accepts a file exactly if it is as long as it says.
;
; A file starts with the letters S and K, then its whole length in four bytes, the low byte first. What has arrived stands in the
; device at B (examples/acceptance.c): its length at 0 to 3, its first bytes from 4 on. So S is at 4, K at 5, and the two words of
; the declared length are at 6 and 8.
;
; A comparison takes a number of at most 31, MOV one of at most 255: larger ones go into a register first. CJP jumps where the
; comparison before it was true. Give it a label, never a register: that word would mean JMP, and strict assembly refuses it.

LDB A, [B #4]
MOV C, #83
NEQ A, C
CJP reject
LDB A, [B #5]
MOV C, #75
NEQ A, C
CJP reject

; the high words
LDR A, [B #2]
LDR C, [B #8]
NEQ A, C
CJP reject

; Past the end of a short file the device has zeros. Those must not count as a declared length, so fewer than six bytes are too few.
NEQ A, #0
CJP low
LDR A, [B #0]
LT A, #6
CJP reject

low:
LDR A, [B #0]
LDR C, [B #6]
NEQ A, C
CJP reject

MOV A, #1
MOV FLAGS, #1

reject:
MOV A, #0
MOV FLAGS, #1
