# Fills a table of the squares of 0 to 15 in its state block, and says the one of 9.
module 6
version 1
state 16
handler .start
code
start:
movw r28,r24
movw r30,r24
ldi r16,0
fill:
mul r16,r16
st z+,r0
inc r16
cpi r16,16
brbc 1,.fill
ldd r24,y+9
kcall 8
ret
