module 1
version 1
state 0
handler .again
code
again:
rjmp .again
