⍝ Seconds to hours, minutes and seconds, and back
HMS←24 60 60
HMS⊤4000
HMS⊥1 6 40
⍝ several at once: each column is a time, or each row
HMS⊤59 3600 86399
⍉HMS⊤59 3600 86399
⍝ back by the weights of hours, minutes and seconds
3600 60 1+.×HMS⊤59 3600 86399
⍝ a second before midnight
HMS⊤¯1
⍝ a radix of 0 in front takes all that is left: days
0 24 60 60⊤1000000
0 24 60 60⊥11 13 46 40
⍝ digits in tens and in twos
10 10 10 10⊤1968
10⊥1 9 6 8
(8⍴2)⊤200
2⊥1 1 0 0 1 0 0 0
