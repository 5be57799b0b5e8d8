⍝ A list upwards and downwards, by its grades
A←31 4 15 9 26 5
A[⍋A]
A[⍒A]
⍝ names by age; those of one age stay in their order
NAMES←4 5⍴'ANNA BOB  CLARADAVID'
AGES←31 25 47 25
NAMES[⍋AGES;]
NAMES[⍒AGES;]
⍝ who is 25, and how old the first is
(AGES=25)⌿NAMES
AGES[1]
