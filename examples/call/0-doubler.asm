# Provides function 1, which doubles R16 and says it.
module 2
version 1
state 0
handler .0
provides 1 iv00 .double
code
ret
double:
add r16,r16
mov r24,r16
kcall 8
ret
