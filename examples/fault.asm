; fault: accepts a file exactly if it consists of whole records, whose size is the file's first byte. It is wrong on purpose: it
; does not ask whether that byte is 0, so a file that starts with a 0 makes it divide by 0. The machine refuses that step, and the
; steps before it can be taken back and shown. (It looks at the low 16 bits of the length alone.)

LDR A, [B #0]
LDB C, [B #4]
MODR A, A, C
EQ A, #0
CJP accept

MOV A, #0
MOV FLAGS, #1

accept:
MOV A, #1
MOV FLAGS, #1
