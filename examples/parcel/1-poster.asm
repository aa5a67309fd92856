# Makes a block, writes three bytes into it, and posts it to module 2 as a message of type 9.
module 1
version 1
state 0
handler .0
code
ldi r24,3
ldi r25,0
kcall 0
movw r26,r24
movw r18,r24
ldi r16,65
st x+,r16
ldi r16,66
st x+,r16
ldi r16,67
st x,r16
ldi r24,2
ldi r22,9
ldi r20,3
ldi r21,0
ldi r16,0
kcall 4
ret
