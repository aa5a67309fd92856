# At INIT posts seventeen messages to itself, and says what the last post answered.
module 5
version 1
state 0
handler .start
code
start:
lds r16,0x0100
cpi r16,0
brbc 1,.heard
ldi r17,17
post:
ldi r24,5
ldi r22,9
ldi r16,0
kcall 3
dec r17
brbc 1,.post
kcall 8
heard:
ret
