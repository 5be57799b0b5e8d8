⍝ A product of matrices by hand: what is bought in two shops, by what it costs
A←2 3⍴3 1 2 0 4 5
B←3 2⍴10 12 7 5 3 4
A
B
⍝ one element: a row of the left one times a column of the right one, added up
A[1;]×B[;1]
+/A[1;]×B[;1]
⍝ all four of them, row by row
2 2⍴(+/A[1;]×B[;1]),(+/A[1;]×B[;2]),(+/A[2;]×B[;1]),+/A[2;]×B[;2]
⍝ the products of each with each, of which those count whose inner numbers are the same: the diagonal of the two inner axes
⍴A∘.×B
⍴1 3 3 2⍉A∘.×B
+/1 3 3 2⍉A∘.×B
⍝ all at once
A+.×B
⍝ where the numbers of columns and rows differ there is none
A+.×A
A+.×⍉A
