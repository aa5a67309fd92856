# Says the byte of each message of type 9, and sends it back less one until it is 0.
module 2
version 1
state 0
handler .start
code
start:
lds r16,0x0100
cpi r16,9
brbc 1,.stop
lds r24,0x0104
kcall 8
lds r20,0x0104
cpi r20,0
brbs 1,.stop
subi r20,1
lds r24,0x0101
ldi r22,9
ldi r16,0
kcall 3
stop:
ret
