# Takes the block of each message of type 9, and says its first byte.
module 2
version 1
state 0
handler .start
code
start:
lds r16,0x0100
cpi r16,9
brbc 1,.stop
kcall 5
movw r26,r24
ld r24,x
kcall 8
stop:
ret
