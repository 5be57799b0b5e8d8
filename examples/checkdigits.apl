⍝ Account numbers whose last digit is a check: from the right each second digit is doubled, and all digits add up to a multiple of ten
ACCOUNTS←4 11⍴'79927398713799273987104539578763854395787638'
⍝ their digits, as numbers
D←¯1+'0123456789'⍳ACCOUNTS
D
⍝ the weights from the left, for eleven digits
W←11⍴1 2
W
⍝ a product of two digits counts as their sum: 10 10⊤ has the tens and the units
SUMS←+/+⌿10 10⊤D×(⍴D)⍴W
SUMS
⍝ which ones are right
0=10|SUMS
(0=10|SUMS)⌿ACCOUNTS
⍝ the check digit of a number without one
N←7 9 9 2 7 3 9 8 7 1
10|-+/+⌿10 10⊤N×10⍴1 2
⍝ A book's number: weights from 10 to 1, and the sum is a multiple of eleven
BOOK←0 3 0 6 4 0 6 1 5 2
11|BOOK+.×11-⍳10
⍝ two digits exchanged are found
11|BOOK[1 2 4 3 5 6 7 8 9 10]+.×11-⍳10
