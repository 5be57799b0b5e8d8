⍝ Lists of thousands of numbers that nothing needs any more, and results that may be written over them. Sums are by their formulas.
A←⍳10000
A←A+A
+/A
A[1 2 9999 10000]
A←A-1
+/A
⍝ shorter by less than an eighth, by more than that, and longer
A←9000↑A
+/A
⍴A
A←A×2
+/A
A←4096↑A
+/A
A←A÷2
+/A
A←A,A
+/A
A←A+1
+/A
⍴A
A←4095↑A
A←-A
+/A
A←4097⍴A
+/A
⍝ another name has the list
A←⍳8000
B←A
A←A+1
+/A
+/B
B[1 8000]
A←B
A←⌽A
+/A=B
A[1 2 8000]
B[1 2 8000]
⍝ values within a line
+/(A+B)×A+B
+/(A×A)-B×B
+/A×B
+/((A+B)×A-B)+((B+A)×B-A)+A
∧/B=⌽A
⍝ a fault, and what is there after it
A←9223372036854775807-⍳5000
B←A+A
+/B
A[1]
A←A-A
+/A
A←⍳5000
B←A÷A-2500
B←A×2
+/B
⍝ scans, of one line and of several
A←⍳5000
A←+\A
A[5000]
+/A
A←-\A
A[1 2 3 5000]
+/A
M←70 80⍴⍳5600
M←+\M
M[70;80]
M←+⍀M
M[70;80]
M←⌈\M
M[70;80]
⍝ rearranged, chosen and joined
M←100 50⍴⍳5000
M←⍉M
M[2;1 2 100]
M←⌽M
M[2;1 2 100]
M←⊖M
M[49;1 2 100]
M←⍉M
M[100;49]
M←M[⌽⍳100;]
M[1;49]
M←,M
M[1]
+/M
A←⌽⍳6000
A←A[⍋A]
+/A=⍳6000
A←(2|A)/A
⍴A
A←2/A
+/A
A←1↓A,0
A[1 2 5999 6000]
A←⍳6000
A[3]←0
+/A
A[1 6000]←7
+/A
B←A
A[2]←100
B[2]
A[2]
T←(⍳100)∘.×⍳100
+/+/T
T←(⍳100)∘.+⍳100
+/+/T
T←T+.×T
,T[1 100;1 100]
⍝ characters between lists of numbers
C←5000⍴'AB'
A←C='A'
+/A
C←⌽C
C[1 2]
A←C='A'
+/A[2×⍳2500]
⍝ the workspace cleared, and a value that is shown
)CLEAR
A←⍳4200
+/A×0<A
3↑A×2
