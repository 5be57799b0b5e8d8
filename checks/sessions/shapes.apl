⍝ Small answers: shape, kind and elements.

⍝ Shapes, elements in row order, other shapes, and numbers from the origin.
⍴R←⍴5
' '=1↑R
⍴R←⍴2 0 3⍴''
R
⍴R←⍴1 2 1 2 1 2 1 2⍴0
R
⍴R←⍴0 1073741824⍴0
R
⍴R←,2 3⍴⍳6
R
⍴R←,'A'
R
⍴R←,3 0⍴''
' '=1↑R
⍴R←2 3⍴1 2 3 4 5
R
⍴R←4⍴'AB'
R
⍴R←(,2)⍴2 3⍴⍳6
R
⍴R←''⍴1 2 3 4 5
R
⍴R←(,0)⍴'A'
' '=1↑R
⍴R←2 0⍴⍳0
' '=1↑,R
⍴R←(8⍴1 2)⍴1 2 3 4 5
,R
⍴R←0 1073741824⍴⍳0
' '=1↑,R
⍴R←⍳3
R
)ORIGIN 0
⍴R←⍳,3
R
)ORIGIN 1
⍴R←⍳0
' '=1↑R
⍴R←⍉2 3⍴⍳6
R
⍴R←⍉2 3 2⍴⍳12
R
⍴R←⍉'ABC'
R

⍝ Joined arrays.
⍴R←1,2
R
⍴R←1,[1]2
R
⍴R←'AB','C'
R
⍴R←(2 2⍴1 2 3 4),9
R
⍴R←(2 2⍴1 2 3 4),[1]8 9
R
⍴R←8 9,[2]2 3⍴⍳6
R
⍴R←(2 3⍴⍳6),[1]2 3⍴⍳6
R
⍴R←(2 2⍴1 2 3 4),2 3⍴⍳6
R
⍴R←5,2 2 2⍴0
R
⍝ an empty argument has its kind where no argument has elements
⍴R←'',⍳0
' '=1↑R
⍴R←(⍳0),''
' '=1↑R
⍴R←(⍳0),'A'
R
⍴R←'',5
R
⍴R←5,0 3⍴''
' '=1↑,R
⍴R←(0 3⍴''),5
' '=1↑,R
⍴R←5,[1]0 3⍴0
R

⍝ First and last elements.
⍴R←2↑1 2 3
R
⍴R←(,¯2)↑1 2 3
R
⍴R←3↑'AB'
R='AB '
⍴R←¯3↑5 6
R
⍴R←¯3 2↑2 3⍴⍳6
R
⍴R←1 ¯4↑2 3⍴⍳6
R
⍴R←3↑''
R='   '
⍴R←0↑'AB'
' '=1↑R
⍴R←2 2↑5
R
⍴R←(⍳0)↑5
R
⍴R←0 1073741824↑0 0⍴0
' '=1↑,R
⍴R←2↓1 2 3
R
⍴R←(,¯2)↓1 2 3
R
⍴R←1 ¯1↓2 3⍴⍳6
R
⍴R←0 3↓2 3⍴'ABC'
' '=1↑,R
⍴R←¯9223372036854775808↓1 2 3
' '=1↑R
⍴R←9223372036854775807↓1 2 3
' '=1↑R
⍴R←1↓5
' '=1↑R
⍴R←0 0↓5
R
⍴R←''↓'A'
R

⍝ Reversed, rotated and transposed arrays.
⍴R←⌽'ABC'
R
⍴R←⌽2 3⍴⍳6
R
⍴R←⊖2 3⍴⍳6
R
⍴R←⌽[2]2 3 2⍴⍳12
R
⍴R←⌽5
R
⍴R←⌽[1]0 3⍴''
' '=1↑,R
⍴R←2⌽1 2 3 4 5
R
⍴R←(1 1⍴¯1)⌽'ABC'
R
⍴R←1⌽[1]2 3⍴⍳6
R
⍴R←1 2⌽2 3⍴⍳6
R
⍴R←0 1 2⊖2 3⍴⍳6
R
⍝ the least number leaves 1 by 3, and the greatest 1
⍴R←¯9223372036854775808⌽1 2 3
R
⍴R←9223372036854775807⌽1 2 3
R
⍴R←(,1)⌽'A'
R
⍴R←''⌽0 3⍴0
' '=1↑,R
⍴R←2 1⍉2 3⍴⍳6
R
⍴R←1 1⍉3 3⍴⍳9
R
⍴R←1 2 1⍉2 3 2⍴⍳12
R
)ORIGIN 0
⍴R←1 0 2⍉2 3 2⍴1+⍳12
R
)ORIGIN 1
⍴R←2 1 1⍉2 3 4⍴⍳24
R
⍴R←1⍉'ABC'
R
⍴R←''⍉5
R
⍴R←2 1⍉0 2⍴''
' '=1↑,R
⍴R←⌽[3]2 3 2⍴⍳12
R

⍝ Compressed and expanded arrays.
⍴R←1 0 1/'ABC'
R
⍴R←0 1⌿2 3⍴⍳6
R
⍴R←1 0 1/[2]2 3⍴⍳6
R
⍴R←0 1 1/[2]2 3 2⍴⍳12
R
⍴R←1/2 3⍴⍳6
R
⍴R←(,0)/2 3⍴'A'
' '=1↑,R
⍴R←1 0/[1]5
R
⍴R←1 0 1/'A'
R
⍴R←''/5
' '=1↑R
⍴R←2 0 3/'ABC'
R
⍴R←0 2⌿2 3⍴⍳6
R
⍴R←0 2 1/[2]2 3 2⍴⍳12
R
⍴R←2/2 3⍴⍳6
R
⍴R←2/⍳0
' '=1↑R
⍴R←1 2/5
R
⍴R←1 0 1\'AB'
R
⍴R←0 1 1⍀2 3⍴⍳6
R
⍴R←1 1 0 1\[2]2 3⍴⍳6
R
⍴R←1 0\[1]1 2⍴3 4
R
⍴R←1 0 1\5
R
⍴R←0\5
R
⍴R←1\,5
R
⍴R←0 0\''
R='  '
⍴R←''\5
' '=1↑R
⍴R←0 0\3 0⍴''
R=3 2⍴' '

⍝ Searches and grades.
⍴R←3 1 4⍳4 9
R
)ORIGIN 0
⍴R←'ABC'⍳'CAX'
R
)ORIGIN 1
⍝ the first of equal ones
A←2 2⍴¯9223372036854775808 7 9223372036854775807 7
⍴R←7 ¯9223372036854775808 7 ¯9223372036854775808⍳A
R
⍴R←''⍳5
R
⍴R←65 66⍳'A'
R
⍴R←1 2 3⍳0 2⍴''
' '=1↑,R
⍴R←'AB'∊'BC'
R
⍴R←(2 3⍴⍳6)∊2 2⍴1 2 3 4
R
⍴R←'A'∊65 2
R
B←9223372036854775807
⍴R←B∊B
R
⍴R←1 2 3∊⍳0
R
⍴R←''∊1 2 3
' '=1↑R
⍴R←⍋3 1 2 1
R
⍴R←⍒3 1 2 1
R
)ORIGIN 0
C←0 9223372036854775807 ¯9223372036854775808 ¯1
⍴R←⍋C
R
⍴R←⍒C
R
)ORIGIN 1
⍴R←⍋4⍴7
R
⍴R←⍒4⍴7
R
⍴R←⍋''
' '=1↑R
⍴R←⍒''
' '=1↑R
)ORIGIN 0
⍴R←⍋,9
R
)ORIGIN 1

⍝ Chosen elements, and others in their places.
⍴R←'ABC'[3 1]
R
)ORIGIN 0
⍴R←1 2 3 4 5[2 3⍴0]
R
)ORIGIN 1
⍴R←1 2 3 4 5[]
R
⍴R←(2 3⍴⍳6)[2;]
R
⍴R←(2 3⍴⍳6)[;3 1]
R
)ORIGIN 0
⍴R←(2 3⍴1+⍳6)[1;0]
R
)ORIGIN 1
⍴R←(2 3 2⍴⍳12)[2 1;;,2]
R
⍴R←(2 3 2⍴⍳12)[;2;]
R
⍴R←(2 2⍴'ABCD')['';]
' '=1↑,R
⍴R←''[⍳0]
' '=1↑R
V←1 2 3 4 5
V[2 2]←7 9
⍴V
V
V←2 2⍴1 2 3 4
V[2;]←9
⍴V
V
V←2 2⍴1 2 3 4
V[1;]←1 1 1⍴5
⍴V
V
)ORIGIN 0
V←2 3⍴1+⍳6
V[;2 0]←2 2⍴7 8 9 10
⍴V
V
)ORIGIN 1
V←'ABC'
V[]←'XYZ'
⍴V
V
V←1 2 3
V[1 3 1]←7 8 9
⍴V
V
V←2 2⍴1 2 3 4
V[1 1;2]←8 9
⍴V
V
⍝ no place is chosen: no elements are asked for, and one of the same kind serves
V←1 2 3
V['']←''
⍴V
V
V←1 2 3
V[⍳0]←7
⍴V
V
V←''
V[]←⍳0
⍴V
' '=1↑V

⍝ Reductions, products, and digits in lists of radices.
⍴R←+/2 3⍴⍳6
R
⍴R←+⌿2 3⍴⍳6
R
⍴R←+/[2]2 3 2⍴⍳12
R
⍴R←-/1 2 3 4 5
R
⍴R←+/9223372036854775807 1 ¯1
R
⍴R←×/¯4611686018427387904 2
R
⍴R←⍲/2 1⍴5 7
R
⍴R←+/,'A'
R
⍴R←=/'ABC'
R
⍴R←≠⌿2 2⍴'ABAC'
R
⍴R←⌊/2 0⍴0
R
⍴R←⍱/0 0⍴0
' '=1↑R
⍴R←+/0 1⍴''
' '=1↑R
⍴R←1 2 3∘.×4 ¯5
R
⍴R←9∘.-2 2⍴1 2 3 4
R
⍴R←'AB'∘.='BA'
R
⍴R←''∘.+2⍴1
' '=1↑,R
⍴R←(2 2⍴1 2 3 4)+.×2 2⍴1 2 3 4
R
⍴R←(2 2⍴1 2 3 4)-.⌈2 3⍴⍳6
R
⍴R←(,5)+.×1 2 3
R
⍴R←(2 3⍴'ABCABD')∧.='ABD'
R
⍴R←(2 0⍴0)+.×0 3⍴0
R
⍴R←2⊥1 0 1
R
⍴R←¯9223372036854775808 10⊥1 2
R
⍴R←'A'⊥⍳0
R
⍴R←24 60 60⊤3723 ¯1
R
⍴R←0 ¯1 ¯1⊤¯9223372036854775808
R
⍴R←10⊤17
R
