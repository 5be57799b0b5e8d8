⍝ A magic square of five rows: the numbers in order, each row rotated by its distance from the middle one
N←5
DISTANCES←(⍳N)-(N+1)÷2
DISTANCES
SQUARE←(N,N)⍴⍳N*2
DISTANCES⌽SQUARE
⍝ then each column by its distance from the middle one
MAGIC←DISTANCES⊖DISTANCES⌽SQUARE
MAGIC
⍝ the sums of the rows, of the columns, and of both diagonals
+/MAGIC
+⌿MAGIC
(+/1 1⍉MAGIC),+/1 1⍉⌽MAGIC
⍝ each number stands in it once
∧/(⍳N*2)∊,MAGIC
⍝ a number and the one across the middle have one sum
MAGIC+⌽⊖MAGIC
