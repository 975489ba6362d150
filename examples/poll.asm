; poll
again:
LDB A, B
EQ A, #0
CJP again
MOV PC, C
