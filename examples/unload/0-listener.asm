# Says the byte of each message of type 9.
module 1
version 1
state 0
handler .start
code
start:
lds r16,0x0100
cpi r16,9
brbc 1,.stop
lds r24,0x0104
kcall 8
stop:
ret
