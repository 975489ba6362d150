; handler: accepts a file exactly if it is as long as it says, in the low 16 bits; but a control file, which begins with a C and
; says no length, is accepted by a handler of its own. The lengths stand where site.asm finds them.
;
; It is wrong on purpose, as a site's program once was. What was meant: A has the handler's address, and CJP A goes there only if
; the comparison was true. But no word means that: the word of CJP A means JMP A, and the handler would accept every file. So
; strict assembly refuses the line. CJP control does what was meant, and needs no register.

LDB A, [B #4]
MOV C, #67
EQ A, C
; the address of control
MOV A, #26
CJP A

LDR A, [B #0]
LDR C, [B #6]
EQ A, C
CJP accept
MOV A, #0
MOV FLAGS, #1

accept:
MOV A, #1
MOV FLAGS, #1

control:
MOV A, #1
MOV FLAGS, #1
