⍝ A product of matrices: each row of the left one with each column of the right one
A←2 3⍴1 2 3 4 5 6
B←3 2⍴7 8 9 10 11 12
A+.×B
B+.×A
⍝ a matrix and a list
A+.×1 0 ¯1
⍝ the matrix that changes nothing
I←(⍳3)∘.=⍳3
I
∧/,B=I+.×B
⍝ the product of the transposed ones is the product transposed
∧/,(⍉A+.×B)=(⍉B)+.×⍉A
⍝ Fibonacci's numbers are in the powers of a matrix
F←2 2⍴1 1 1 0
F+.×F+.×F+.×F+.×F
⍝ other functions make other products: the shortest ways of one or two roads
ROADS←3 3⍴0 4 9 4 0 2 9 2 0
ROADS⌊.+ROADS
