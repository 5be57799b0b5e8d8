⍝ A balance after each entry, and the highest so far
A←120 ¯35 ¯20 80 ¯50
+\A
⌈\+\A
⍝ The first of several ones, and a parity after each bit
<\0 0 1 0 1
≠\1 0 1 1 0 1
⍝ Subtotals down the columns of a table
+⍀3 2⍴10 1 20 2 30 3
