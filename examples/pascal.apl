⍝ Pascal's triangle: in how many ways each number of things can be chosen from 0 to 6 things
N←0,⍳6
TRIANGLE←⍉N∘.!N
TRIANGLE
⍝ a row is the one before it, added to itself moved by one place
ROW←1 3 3 1
(0,ROW)+ROW,0
⍝ the sums of the rows are the powers of two
+/TRIANGLE
∧/(2*N)=+/TRIANGLE
⍝ with turns of sign they are 0, but for the first
-/TRIANGLE
⍝ the powers of eleven, as long as no digit is carried; with carrying all of them
10⊥1 4 6 4 1
11*4
10⊥1 5 10 10 5 1
11*5
⍝ odd ones
' *'[1+2|TRIANGLE]
