# As the other module; and any other message, so INIT, begins the talk with a 2.
module 1
version 1
state 0
handler .start
code
start:
lds r16,0x0100
cpi r16,9
brbc 1,.begin
lds r24,0x0104
kcall 8
lds r20,0x0104
cpi r20,0
brbs 1,.stop
subi r20,1
lds r24,0x0101
ldi r22,9
ldi r16,0
kcall 3
stop:
ret
begin:
ldi r24,2
ldi r22,9
ldi r20,2
ldi r16,0
kcall 3
ret
