⍝ A moving average of three days in whole numbers
V←12 15 11 20 26 19 8 14
⍝ sums of three neighbours: differences of the running sums
S←0,+\V
S
THREES←(3↓S)-¯3↓S
THREES
⍝ the average rounded down: what is left over by 3 is taken away first
(THREES-3|THREES)÷3
⍝ rounded to the nearest number
HALF←THREES+1
(HALF-3|HALF)÷3
⍝ in tenths, rounded down
TENTHS←10×THREES
(TENTHS-3|TENTHS)÷3
⍝ the same sums from a table of neighbours
+⌿V[(¯1+⍳3)∘.+⍳6]
⍝ the days on which the sum of three was the greatest, by the first of the three
(THREES=⌈/THREES)/⍳⍴THREES
