⍝ A table of multiplication: a table whose rows count on, times one whose columns do
N←10
ROWS←(N,N)⍴⍳N
ROWS×⍉ROWS
⍝ the squares on its diagonal
1 1⍉ROWS×⍉ROWS
