⍝ Indexed assignment where one name has the array, and where something else has it as well. The answers are Python's.

⍝ one name
A←10 20 30 40 50
A[2]←7
A
A[5 1]←1 2
A
A[3 3]←8 9
A
A[⍳0]←⍳0
A[⍳0]←4
A

⍝ after an error the array is as it was
A[6]←1
A[1 2 0]←4 5 6
A[1 2]←1 2 3
A[1 2]←2 2⍴1
A[1;1]←1
A['A']←1
A[1]←'X'
A

⍝ two names
B←A
A[1]←¯1
A
B
B[2]←¯2
A
B
A[3]←¯3
A
B
B←C←A
C[1 2]←5 6
A
B
C
B[7]←1
B[4]←0
A
B
C

⍝ the array is its own value or its own index
A←3 1 2
A[A]←10×A
A
A←2 3 1
A[A]←A
A
A[⍳3]←⌽A
A
A[A[2]]←9
A
A[1]←A[2]+A[3]
A

⍝ several assignments in a line
A[1]←A[3]←5
A
A[B←2]←6
A
B
C←A[1]←4
A
C
B←7 8 9
A[2]←B[3]←A[1]
A
B
B[1]←0×⍴⍴B←A
A
B
A[1]←⍴⍴A←1 1 1
A
A[9]←A[1]←0
A
'X'+A[1]←8
A
Z[1]←A[2]←3
A

⍝ a constant is there once for each line
K←1 2 3
K[1]←9
K
K←1 2 3
K
K←L←4 5 6
L[2]←0
K
L

⍝ truth values, and numbers in their place
T←3>⍳5
T[4]←1=1
T
T[5]←1
T
T←3>⍳5
U←T
T[1 2]←0 7
T
U
T[3 2]←2>1 2
T
U
U[5 1]←2>1 2
T
U
U[2]←'X'
U

⍝ characters
S←'CARTS'
S[1]←'D'
S
R←S
S[3 4]←'TE'
S
R
R[1]←1
R

⍝ matrices, and a scalar
M←2 3⍴⍳6
M[1;]←0
M
N←M
M[;2]←7 8
M
N
M[2;3 1]←20 30
M
N←M
M[;]←9
M
N
Q←5
Q[1]←6
Q

⍝ large arrays
A←⍳100000
A[100000]←0
+/A
B←A
A[⍳50000]←0
(+/A),+/B
A[⌽⍳100000]←⍳100000
A[1 2 100000],+/A
A[⍳100001]←0
+/A
T←50000<⍳100000
U←T
T[⍳100]←1=1
(+/T),+/U
T[1]←1000
(+/T),T[1 2 101]
M←300 300⍴0 1 2 3 4 5 6
M[;300]←100
+/+/M
N←M
M[150;]←⍳300
(+/+/M),+/+/N

⍝ an index at a time
X←1000⍴0
X[1]←5
X[500]←¯4
X[1000]←3
X[500]←11
(+/X),X[1 500 1000]
