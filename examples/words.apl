⍝ A list of words: a row for each, with blanks behind the shorter ones
WORDS←6 6⍴'APPLE PEAR  CHERRYPLUM  GRAPE PEACH '
WORDS
⍝ which of them is PLUM, and its number
WORDS∧.=6↑'PLUM'
(WORDS∧.=6↑'PLUM')⍳1
⍝ how long they are, and the longest
+/WORDS≠' '
(L=⌈/L←+/WORDS≠' ')⌿WORDS
⍝ those that begin with PE
(WORDS[;⍳2]∧.='PE')⌿WORDS
⍝ those with an R anywhere
(∨/WORDS='R')⌿WORDS
⍝ how many vowels each has
+/WORDS∊'AEIOU'
⍝ those that fit a pattern, whose question marks stand for any letter
PATTERN←'P?A?? '
KNOWN←PATTERN≠'?'
((KNOWN/WORDS)∧.=KNOWN/PATTERN)⌿WORDS
⍝ which letters of the alphabet stand somewhere
(ALPHABET∊WORDS)/ALPHABET←'ABCDEFGHIJKLMNOPQRSTUVWXYZ'
⍝ by their first letters: the grade of the letters' numbers
WORDS[⍋ALPHABET⍳WORDS[;1];]
