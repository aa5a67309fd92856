module 2
version 1
state 0
handler .0
code
ret
