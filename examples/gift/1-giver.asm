# Makes a block of eight bytes, writes into it, gives it to module 2, and writes again.
module 1
version 1
state 0
handler .0
code
ldi r24,8
ldi r25,0
kcall 0
movw r26,r24
ldi r16,65
st x,r16
ldi r22,2
kcall 2
st x,r16
ret
