⍝ Truth values made and read by all functions of arrays. The answers are Python's.

⍝ made by comparisons and logical functions
A←3 1 4 1 5 9 2 6
B←2 7 1 8 2 8 1 8
T←A<B
F←A≥B
S←3<4
N←3>4
T
F
⍴S
S,N
A=B
(A≤3),A≠1
~T
~S
T∧F
T∨F
T∧A>2
T⍲A>2
T⍱A>2
T=F
T≠A>2
T≤A>2
T<A>2
T>S
S∧T
T∨N
1∧T
T∧0 1 0 1 0 1 0 1
0 1 0 1 0 1 0 1∨T
~0 1 1 0
'CAT'='COT'
'CAT'≠'T'
'A'=A
T='T'
⍝ read by arithmetic
T+F
T-F
T×A
A÷S
T+T
T⌊F
T⌈A
A*T
T*T
2|T
T|A
T!F
-T
+T
×T
|T
!T
÷S
⌊T
A×A>3
10×T
T-1
⍝ tables
M←3 4⍴T
K←M≥3 4⍴F
M
K
~M
M∧K
M∧S
M+K
M×3 4⍴⍳12
M=K
(3 4⍴⍳12)>6
M<3 4⍴⍳12
⍴2 3 4⍴T
(2 3 4⍴⍳24)≤12
C←'CAT'∘.='TACIT'
C
⍝ reduced
(+/T),(∧/T),(∨/T),(≠/T),(=/T),(-/T),(×/T),(⌈/T),(⌊/T)
(+/F),(∧/F),(∨/F),(≠/F),(=/F),(-/F),(×/F),(⌈/F),(⌊/F)
(</T),(≤/T),(>/T),(≥/T),(⍲/T),(⍱/T),(|/T),(*/T),(!/T)
(+/S),(∧/S),(∨/N),(∧/,S),(∨/,N)
+/M
∧/M
∨/M
≠/M
-/M
×/M
⌈/M
⌊/M
=/M
⍲/M
+⌿M
∧⌿M
∨⌿M
≠⌿M
-⌿M
×⌿M
⌈⌿M
⌊⌿M
=⌿M
⍱⌿M
+/[1]2 3 2⍴M
∧/[2]2 3 2⍴M
∨/[3]2 3 2⍴M
(+/0⍴T),(∧/0⍴T),(∨/0⍴T),(⌈/0⍴S),≠/0⍴T
+/0 4⍴T
+⌿0 4⍴T
∧/M=3 4⍴T
∧/,M=3 4⍴T
⍝ scanned
+\T
∧\T
∨\T
≠\T
-\T
×\T
⌈\T
⌊\T
=\T
<\T
⍲\T
∧\1 1 1 0 1=1
∨\0 0 1 0 1=1
+\M
∧\M
∨\M
≠\M
-\M
+⍀M
∧⍀M
∨⍀M
≠⍀M
-⍀M
∧\[2]2 3 2⍴F
∧\S
∨\1 1⍴N
⍴∧\0⍴T
⍝ chosen and filled up by truth values
T/A
F/A
T/T
T/M[1;1]
S/A
N/A
(1 0 1=1)⌿M
(2 1 0 3=2 1 3 3)/M
(1 2 3=3 2 3)/'ABC'
2/M
(T,1)\(2+⍳+/T),0
(1 0 1 1=1)\'ABC'
(1 0 1=1)\1 2=1 3
(1 1 0 1 1=1)⍀3 4⍴0
(1 0 1 1=1)⍀M
T/[2]3 8⍴⍳24
⍝ moved
⍉M
1 1⍉M
⌽T
⌽M
⊖M
2⌽T
1⌽M
(1 0 1=1)⌽M
T[1 2 3 4]⊖M
S⌽T
3↑T
¯3↑T
10↑T
2 6↑M
¯4 ¯5↑M
3↓T
1 1↓M
¯1↓T
2 2↑S
0↑T
T,F
T,A
A,T
S,N
S,5
M,K
M,[1]K
M,S
M,7
M,[1]T[1 2 3 4]
,M
2 2⍴T
10⍴S
0 3⍴T
''⍴T
⍝ indexed
T[2]
T[3 1 1 8]
T[2 2⍴1 2 3 4]
M[2;]
M[;1 3]
M[1 3;4 2]
A[1+T]
A[1+M]
'NY'[1+T]
'.X'[1+M]
A[T]
⍝ replaced
V←A
V[2 3 4]←T[1 2 3]
V
V[1]←S
V
V←T
V[1]←7
V
T
V←T
V[1 2]←F[1 2]
V
T
V[3 4]←¯5 0
V
V←M
V[2;]←10
V
V[;1]←1 2 3>2
V
V←M
V[1;2]←3=3
V
M
V←T
V[⍳8]←A
V
V←T
V[]←0
V
V[]←S
V
V←T
V[1]←'A'
'ABC'[1]
V←'ABC'
V[1]←S
V[4]←S
⍝ counts and indexes that are truth values
⍳3=3
⍳3=4
S⍴7
N⍴7
(A=1)⍴5
(1 1=1)⍴5
S↑A
N↑A
(,S)↑A
(1 0=1)↑M
(1 1=1)↓M
S↓A
T↑A
(A>2)↑A
(1=1)⌽A
(2 2=2 1)⌽2 3⍴⍳6
S⍉A
⌽[S]M
+/[S]M
A,[S]B
)ORIGIN 0
A[B=1]
A[T]
A[M]
'NY'[T]
M[S;]
M[S;N]
M[;B[0 1]=2]
⍋T
⍒T
T⍳0 1 2
T⍳S
⍳S
⌽[N]M
+/[N]M
A[S]←100
A
A[0 1 2=1 1 2]←T[3 4 5]
A
(0 1=1)⍉M
)ORIGIN 1
A←3 1 4 1 5 9 2 6
⍝ searched and in order
T∊1
T∊S
A∊T
T∊A
M∊0
2 0 1∊T
T∊'01'
'01'∊T
T∊0⍴0
(0⍴T)∊T
A∊1 2 3=1 2 4
T⍳1 0
T⍳2 1
T⍳S
A⍳T
A⍳M
T⍳'A'
T⍳F
⍋T
⍒T
⍋⍋T
T[⍋T]
⍋0⍴T
⍋,S
⍒A∊5 9
⍝ products
T∘.∧F
S∘.∨T
(1 2 3∘.≥1 2 3)∘.+1 0
(1 0=1)∘.+5 6
(⍳3)∘.×1 0 1=1
T+.×A
T+.∧F
T∧.=T
T∧.=F
M+.×⍉M
M∨.∧⍉K
M∧.≥⍉K
M+.=⍉K
M≠.∧⍉M
(3 4⍴⍳12)+.×⍉M
M+.×⍳4
S+.×A
A+.×S
A⌊.+T
⍝ digits
2⊥T
10⊥1 0 1 1=1
S⊥T
T⊥A
T⊥S
A⊥T
2 2 2⊤5
(3⍴2)⊤M[1;]
10 10⊤T
(2 3=2 2)⊤7
T⊤5
⍝ faults
T∧A
A∧T
T∨2
~A
~'A'
T∧'A'
T<'A'
T∧1 0
T∧M
M∧2 2⍴1
M+1 2 3
1÷T
1÷A=B
A÷N
N÷N
S÷2
T÷3
÷T
0*T-1
T[0]
T[9]
T[S;S]
M[1]
M[4;1]
A[A=1]
T['A']
(1 0=1)/A
(1 2=1)\A
(T-1)/A
T\A
T⌽M
(1 1 1=1)↑M
M⍴1
M⍳1
⍋M
⍳T
T∨.∧1 0
T+.×1 2
2 2⊥M
M⊤1
(T,'A')
'A',T
⍲/0⍴T
T[1 2]←1 2 3
T[9]←1
T[1]←'A'
T
⍝ written
S
2 2⍴S,N
2 2 2⍴T
3 4⍴T,¯10
40⍴T
2 60⍴T
1 1⍴S
0⍴T
⍝ Vectors whose elements truth values keep, by lengths about 128 and 256
A←⍳1
R←(0=3|A)/A
(⍴R),(+/R),+/R×⍳⍴R
R←(A=1)/A
(⍴R),(+/R),+/R×⍳⍴R
R←(A=1)/A
(⍴R),(+/R),+/R×⍳⍴R
R←(A>0)/A
(⍴R),(+/R),+/R×⍳⍴R
R←(A<0)/A
(⍴R),(+/R),+/R×⍳⍴R
R←(0=128|A)/A
(⍴R),(+/R),+/R×⍳⍴R
R←(1=128|A)/A
(⍴R),(+/R),+/R×⍳⍴R
R←((A<100)∨A>-2)/A
(⍴R),(+/R),+/R×⍳⍴R
+/(0=3|A)/7
+/(0=3|A)/A>50
+/'B'=(0=3|A)/(⍴A)⍴'AABCB'
A←⍳8
R←(0=3|A)/A
(⍴R),(+/R),+/R×⍳⍴R
R←(A=8)/A
(⍴R),(+/R),+/R×⍳⍴R
R←(A=1)/A
(⍴R),(+/R),+/R×⍳⍴R
R←(A>0)/A
(⍴R),(+/R),+/R×⍳⍴R
R←(A<0)/A
(⍴R),(+/R),+/R×⍳⍴R
R←(0=128|A)/A
(⍴R),(+/R),+/R×⍳⍴R
R←(1=128|A)/A
(⍴R),(+/R),+/R×⍳⍴R
R←((A<100)∨A>5)/A
(⍴R),(+/R),+/R×⍳⍴R
+/(0=3|A)/7
+/(0=3|A)/A>50
+/'B'=(0=3|A)/(⍴A)⍴'AABCB'
A←⍳127
R←(0=3|A)/A
(⍴R),(+/R),+/R×⍳⍴R
R←(A=127)/A
(⍴R),(+/R),+/R×⍳⍴R
R←(A=1)/A
(⍴R),(+/R),+/R×⍳⍴R
R←(A>0)/A
(⍴R),(+/R),+/R×⍳⍴R
R←(A<0)/A
(⍴R),(+/R),+/R×⍳⍴R
R←(0=128|A)/A
(⍴R),(+/R),+/R×⍳⍴R
R←(1=128|A)/A
(⍴R),(+/R),+/R×⍳⍴R
R←((A<100)∨A>124)/A
(⍴R),(+/R),+/R×⍳⍴R
+/(0=3|A)/7
+/(0=3|A)/A>50
+/'B'=(0=3|A)/(⍴A)⍴'AABCB'
A←⍳128
R←(0=3|A)/A
(⍴R),(+/R),+/R×⍳⍴R
R←(A=128)/A
(⍴R),(+/R),+/R×⍳⍴R
R←(A=1)/A
(⍴R),(+/R),+/R×⍳⍴R
R←(A>0)/A
(⍴R),(+/R),+/R×⍳⍴R
R←(A<0)/A
(⍴R),(+/R),+/R×⍳⍴R
R←(0=128|A)/A
(⍴R),(+/R),+/R×⍳⍴R
R←(1=128|A)/A
(⍴R),(+/R),+/R×⍳⍴R
R←((A<100)∨A>125)/A
(⍴R),(+/R),+/R×⍳⍴R
+/(0=3|A)/7
+/(0=3|A)/A>50
+/'B'=(0=3|A)/(⍴A)⍴'AABCB'
A←⍳129
R←(0=3|A)/A
(⍴R),(+/R),+/R×⍳⍴R
R←(A=129)/A
(⍴R),(+/R),+/R×⍳⍴R
R←(A=1)/A
(⍴R),(+/R),+/R×⍳⍴R
R←(A>0)/A
(⍴R),(+/R),+/R×⍳⍴R
R←(A<0)/A
(⍴R),(+/R),+/R×⍳⍴R
R←(0=128|A)/A
(⍴R),(+/R),+/R×⍳⍴R
R←(1=128|A)/A
(⍴R),(+/R),+/R×⍳⍴R
R←((A<100)∨A>126)/A
(⍴R),(+/R),+/R×⍳⍴R
+/(0=3|A)/7
+/(0=3|A)/A>50
+/'B'=(0=3|A)/(⍴A)⍴'AABCB'
A←⍳255
R←(0=3|A)/A
(⍴R),(+/R),+/R×⍳⍴R
R←(A=255)/A
(⍴R),(+/R),+/R×⍳⍴R
R←(A=1)/A
(⍴R),(+/R),+/R×⍳⍴R
R←(A>0)/A
(⍴R),(+/R),+/R×⍳⍴R
R←(A<0)/A
(⍴R),(+/R),+/R×⍳⍴R
R←(0=128|A)/A
(⍴R),(+/R),+/R×⍳⍴R
R←(1=128|A)/A
(⍴R),(+/R),+/R×⍳⍴R
R←((A<100)∨A>252)/A
(⍴R),(+/R),+/R×⍳⍴R
+/(0=3|A)/7
+/(0=3|A)/A>50
+/'B'=(0=3|A)/(⍴A)⍴'AABCB'
A←⍳256
R←(0=3|A)/A
(⍴R),(+/R),+/R×⍳⍴R
R←(A=256)/A
(⍴R),(+/R),+/R×⍳⍴R
R←(A=1)/A
(⍴R),(+/R),+/R×⍳⍴R
R←(A>0)/A
(⍴R),(+/R),+/R×⍳⍴R
R←(A<0)/A
(⍴R),(+/R),+/R×⍳⍴R
R←(0=128|A)/A
(⍴R),(+/R),+/R×⍳⍴R
R←(1=128|A)/A
(⍴R),(+/R),+/R×⍳⍴R
R←((A<100)∨A>253)/A
(⍴R),(+/R),+/R×⍳⍴R
+/(0=3|A)/7
+/(0=3|A)/A>50
+/'B'=(0=3|A)/(⍴A)⍴'AABCB'
A←⍳257
R←(0=3|A)/A
(⍴R),(+/R),+/R×⍳⍴R
R←(A=257)/A
(⍴R),(+/R),+/R×⍳⍴R
R←(A=1)/A
(⍴R),(+/R),+/R×⍳⍴R
R←(A>0)/A
(⍴R),(+/R),+/R×⍳⍴R
R←(A<0)/A
(⍴R),(+/R),+/R×⍳⍴R
R←(0=128|A)/A
(⍴R),(+/R),+/R×⍳⍴R
R←(1=128|A)/A
(⍴R),(+/R),+/R×⍳⍴R
R←((A<100)∨A>254)/A
(⍴R),(+/R),+/R×⍳⍴R
+/(0=3|A)/7
+/(0=3|A)/A>50
+/'B'=(0=3|A)/(⍴A)⍴'AABCB'
A←⍳300
R←(0=3|A)/A
(⍴R),(+/R),+/R×⍳⍴R
R←(A=300)/A
(⍴R),(+/R),+/R×⍳⍴R
R←(A=1)/A
(⍴R),(+/R),+/R×⍳⍴R
R←(A>0)/A
(⍴R),(+/R),+/R×⍳⍴R
R←(A<0)/A
(⍴R),(+/R),+/R×⍳⍴R
R←(0=128|A)/A
(⍴R),(+/R),+/R×⍳⍴R
R←(1=128|A)/A
(⍴R),(+/R),+/R×⍳⍴R
R←((A<100)∨A>297)/A
(⍴R),(+/R),+/R×⍳⍴R
+/(0=3|A)/7
+/(0=3|A)/A>50
+/'B'=(0=3|A)/(⍴A)⍴'AABCB'
