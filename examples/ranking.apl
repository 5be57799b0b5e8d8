⍝ Places in a contest, where equal scores share a place
NAMES←6 5⍴'ANNA BOB  CLARADAVIDEVE  FRANK'
SCORES←71 85 62 85 90 71
⍝ a place is one more than the number of better scores
PLACES←1++/SCORES∘.<SCORES
PLACES
⍝ the names in order, and their places and scores
ORDER←⍒SCORES
NAMES[ORDER;]
⍉2 6⍴PLACES[ORDER],SCORES[ORDER]
⍝ those of the first three places
(PLACES≤3)⌿NAMES
⍝ places without gaps: counted among the different scores
DIFFERENT←((SCORES⍳SCORES)=⍳6)/SCORES
DIFFERENT
1++/SCORES∘.<DIFFERENT
⍝ without sharing: of equal scores the earlier one comes first
⍋⍒SCORES
⍝ the middle of the scores: half of the sum of both middle ones
MIDDLE←SCORES[⍋SCORES][3 4]
(+/MIDDLE)÷2
