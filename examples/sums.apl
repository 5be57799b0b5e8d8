⍝ Sums of a table: of each row, of each column, and of all
T←3 4⍴5 0 2 7 2 4 4 3 6 8 10 9
T
+/T
+⌿T
+/+/T
⍝ the table with its margins; in the corner stands the sum of all
T←T,+/T
T←T,[1]+⌿T
T
⍝ does each margin have the sums of what stands before it?
T[;5]∧.=+/T[;⍳4]
T[4;]∧.=+⌿T[⍳3;]
⍝ a row's sum that is changed is found again
T[2;5]←31
T[;5]=+/T[;⍳4]
