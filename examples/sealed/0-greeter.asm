# Says its constants byte by byte, up to the zero behind them, and then reads the byte behind their block.
module 1
version 2
state 0
handler .0
sealed
const 4869
code
movw r30,r20
next:
ld r16,z+
cpi r16,0
brbs 1,.past
mov r24,r16
kcall 8
rjmp .next
past:
lds r24,0x0208
ret
