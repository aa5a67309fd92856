module 1
version 1
state 0
handler .0
code
ldi r24,65
kcall 8
ret
