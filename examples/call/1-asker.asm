# Doubles a number by function 1 of module 2, pops what it had pushed before, and calls a function that nobody provides.
module 1
version 1
state 0
handler .0
subscribes 2 1 iv00
subscribes 2 2 iv00
code
ldi r17,7
push r17
ldi r16,21
scall 0
pop r24
kcall 8
scall 1
ret
