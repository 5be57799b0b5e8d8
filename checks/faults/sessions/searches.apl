A←3 1 4 1 5 9 2 6
A⍳1 9 7
4 8∊A
⍋A
⍒A
'HELLO'⍳'LO'
A[⍋A]
2+3 4 5
