# At INIT posts a message to module 1.
module 2
version 1
state 8
handler .start
code
start:
lds r16,0x0100
cpi r16,0
brbc 1,.stop
ldi r24,1
ldi r22,9
ldi r20,66
kcall 3
stop:
ret
