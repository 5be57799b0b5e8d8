⍝ Six lessons of 45 minutes, each an hour after the one before, the first at 8:30: in minutes since midnight
BEGINS←(24 60⊥8 30)+60×¯1+⍳6
BEGINS
⍝ when they begin and when they end, in hours and minutes: a row for each lesson
(⍉24 60⊤BEGINS),⍉24 60⊤BEGINS+45
⍝ from day 1, 22:40 to day 3, 9:15: how many minutes, and so many days, hours and minutes
GONE←(0 24 60⊥3 9 15)-0 24 60⊥1 22 40
GONE
0 24 60⊤GONE
⍝ A visit on the 5th of January and each 25 days after it: the days of the year
DATES←5+25×¯1+⍳8
DATES
⍝ how many days are before each month
DAYS←31 28 31 30 31 30 31 31 30 31 30 31
BEFORE←0,¯1↓+\DAYS
BEFORE
⍝ the month of each date is how many months have begun before it
MONTHS←+⌿BEFORE∘.<DATES
MONTHS
⍝ or by a list of all days, in which each month stands as often as it has days
(DAYS/⍳12)[DATES]
⍝ month, day of the month, and day of the week, where the year begins with a Monday: a row for each date
⍉3 8⍴MONTHS,(DATES-BEFORE[MONTHS]),1+7|DATES-1
⍝ the day of the week in letters
(7 3⍴'MONTUEWEDTHUFRISATSUN')[1+7|DATES-1;]
