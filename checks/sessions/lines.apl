⍝ A
)CLEAR
  1 2+1 2 3 ⍝ x 
)CLEAR
1


1