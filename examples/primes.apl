⍝ What is left of each number by each: a row for each divisor
(⍳6)∘.|⍳6
⍝ the primes up to 50 are the numbers with two divisors
N←⍳50
DIVIDES←0=N∘.|N
P←(2=+⌿DIVIDES)/N
P
⍝ how many they are
⍴P
⍝ those whose second next number is a prime too
((P+2)∊P)/P
⍝ all divisors of 36, and their sum
DIVIDES[;36]/N
+/DIVIDES[;36]/N
⍝ the numbers that are the sum of their smaller divisors
(N=(N+.×DIVIDES)-N)/N
