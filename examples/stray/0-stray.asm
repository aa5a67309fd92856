# Fills the eight bytes of its state block, and goes on.
module 7
version 1
state 8
handler .fill
code
fill:
movw r26,r24
ldi r16,9
next:
st x+,r16
dec r16
brbc 1,.next
ret
