⍝ Truth values by length: what is written for the last places of a run, and a fault there. The answers are Python's.

⍝ 1 place
W←⍳1
K←3>5|7×W
L←2>3|W
A←7|5×W
B←5|3×W
(+/W×K∧L),(+/W×K∨L),(+/W×K⍲L),(+/W×K⍱L),(+/W×~K),(+/W×K=L),+/W×1≠K
(+/W×A<B),(+/W×A≤B),(+/W×A=B),(+/W×A≥B),(+/W×A>B),(+/W×A≠B),+/W×3<A
Z←2|W
Z[1]←2
K∧Z

⍝ 2 places
W←⍳2
K←3>5|7×W
L←2>3|W
A←7|5×W
B←5|3×W
(+/W×K∧L),(+/W×K∨L),(+/W×K⍲L),(+/W×K⍱L),(+/W×~K),(+/W×K=L),+/W×1≠K
(+/W×A<B),(+/W×A≤B),(+/W×A=B),(+/W×A≥B),(+/W×A>B),(+/W×A≠B),+/W×3<A
Z←2|W
Z[2]←2
K∧Z
Z←2|W
Z[1]←2
K∧Z

⍝ 3 places
W←⍳3
K←3>5|7×W
L←2>3|W
A←7|5×W
B←5|3×W
(+/W×K∧L),(+/W×K∨L),(+/W×K⍲L),(+/W×K⍱L),(+/W×~K),(+/W×K=L),+/W×1≠K
(+/W×A<B),(+/W×A≤B),(+/W×A=B),(+/W×A≥B),(+/W×A>B),(+/W×A≠B),+/W×3<A
Z←2|W
Z[3]←2
K∧Z
Z←2|W
Z[1]←2
K∧Z

⍝ 4 places
W←⍳4
K←3>5|7×W
L←2>3|W
A←7|5×W
B←5|3×W
(+/W×K∧L),(+/W×K∨L),(+/W×K⍲L),(+/W×K⍱L),(+/W×~K),(+/W×K=L),+/W×1≠K
(+/W×A<B),(+/W×A≤B),(+/W×A=B),(+/W×A≥B),(+/W×A>B),(+/W×A≠B),+/W×3<A
Z←2|W
Z[4]←2
K∧Z
Z←2|W
Z[1]←2
K∧Z

⍝ 5 places
W←⍳5
K←3>5|7×W
L←2>3|W
A←7|5×W
B←5|3×W
(+/W×K∧L),(+/W×K∨L),(+/W×K⍲L),(+/W×K⍱L),(+/W×~K),(+/W×K=L),+/W×1≠K
(+/W×A<B),(+/W×A≤B),(+/W×A=B),(+/W×A≥B),(+/W×A>B),(+/W×A≠B),+/W×3<A
Z←2|W
Z[5]←2
K∧Z
Z←2|W
Z[1]←2
K∧Z

⍝ 6 places
W←⍳6
K←3>5|7×W
L←2>3|W
A←7|5×W
B←5|3×W
(+/W×K∧L),(+/W×K∨L),(+/W×K⍲L),(+/W×K⍱L),(+/W×~K),(+/W×K=L),+/W×1≠K
(+/W×A<B),(+/W×A≤B),(+/W×A=B),(+/W×A≥B),(+/W×A>B),(+/W×A≠B),+/W×3<A
Z←2|W
Z[6]←2
K∧Z
Z←2|W
Z[1]←2
K∧Z

⍝ 7 places
W←⍳7
K←3>5|7×W
L←2>3|W
A←7|5×W
B←5|3×W
(+/W×K∧L),(+/W×K∨L),(+/W×K⍲L),(+/W×K⍱L),(+/W×~K),(+/W×K=L),+/W×1≠K
(+/W×A<B),(+/W×A≤B),(+/W×A=B),(+/W×A≥B),(+/W×A>B),(+/W×A≠B),+/W×3<A
Z←2|W
Z[7]←2
K∧Z
Z←2|W
Z[1]←2
K∧Z

⍝ 8 places
W←⍳8
K←3>5|7×W
L←2>3|W
A←7|5×W
B←5|3×W
(+/W×K∧L),(+/W×K∨L),(+/W×K⍲L),(+/W×K⍱L),(+/W×~K),(+/W×K=L),+/W×1≠K
(+/W×A<B),(+/W×A≤B),(+/W×A=B),(+/W×A≥B),(+/W×A>B),(+/W×A≠B),+/W×3<A
Z←2|W
Z[8]←2
K∧Z
Z←2|W
Z[1]←2
K∧Z

⍝ 9 places
W←⍳9
K←3>5|7×W
L←2>3|W
A←7|5×W
B←5|3×W
(+/W×K∧L),(+/W×K∨L),(+/W×K⍲L),(+/W×K⍱L),(+/W×~K),(+/W×K=L),+/W×1≠K
(+/W×A<B),(+/W×A≤B),(+/W×A=B),(+/W×A≥B),(+/W×A>B),(+/W×A≠B),+/W×3<A
Z←2|W
Z[9]←2
K∧Z
Z←2|W
Z[1]←2
K∧Z

⍝ 10 places
W←⍳10
K←3>5|7×W
L←2>3|W
A←7|5×W
B←5|3×W
(+/W×K∧L),(+/W×K∨L),(+/W×K⍲L),(+/W×K⍱L),(+/W×~K),(+/W×K=L),+/W×1≠K
(+/W×A<B),(+/W×A≤B),(+/W×A=B),(+/W×A≥B),(+/W×A>B),(+/W×A≠B),+/W×3<A
Z←2|W
Z[10]←2
K∧Z
Z←2|W
Z[1]←2
K∧Z

⍝ 11 places
W←⍳11
K←3>5|7×W
L←2>3|W
A←7|5×W
B←5|3×W
(+/W×K∧L),(+/W×K∨L),(+/W×K⍲L),(+/W×K⍱L),(+/W×~K),(+/W×K=L),+/W×1≠K
(+/W×A<B),(+/W×A≤B),(+/W×A=B),(+/W×A≥B),(+/W×A>B),(+/W×A≠B),+/W×3<A
Z←2|W
Z[11]←2
K∧Z
Z←2|W
Z[1]←2
K∧Z

⍝ 12 places
W←⍳12
K←3>5|7×W
L←2>3|W
A←7|5×W
B←5|3×W
(+/W×K∧L),(+/W×K∨L),(+/W×K⍲L),(+/W×K⍱L),(+/W×~K),(+/W×K=L),+/W×1≠K
(+/W×A<B),(+/W×A≤B),(+/W×A=B),(+/W×A≥B),(+/W×A>B),(+/W×A≠B),+/W×3<A
Z←2|W
Z[12]←2
K∧Z
Z←2|W
Z[1]←2
K∧Z

⍝ 13 places
W←⍳13
K←3>5|7×W
L←2>3|W
A←7|5×W
B←5|3×W
(+/W×K∧L),(+/W×K∨L),(+/W×K⍲L),(+/W×K⍱L),(+/W×~K),(+/W×K=L),+/W×1≠K
(+/W×A<B),(+/W×A≤B),(+/W×A=B),(+/W×A≥B),(+/W×A>B),(+/W×A≠B),+/W×3<A
Z←2|W
Z[13]←2
K∧Z
Z←2|W
Z[1]←2
K∧Z

⍝ 14 places
W←⍳14
K←3>5|7×W
L←2>3|W
A←7|5×W
B←5|3×W
(+/W×K∧L),(+/W×K∨L),(+/W×K⍲L),(+/W×K⍱L),(+/W×~K),(+/W×K=L),+/W×1≠K
(+/W×A<B),(+/W×A≤B),(+/W×A=B),(+/W×A≥B),(+/W×A>B),(+/W×A≠B),+/W×3<A
Z←2|W
Z[14]←2
K∧Z
Z←2|W
Z[1]←2
K∧Z

⍝ 15 places
W←⍳15
K←3>5|7×W
L←2>3|W
A←7|5×W
B←5|3×W
(+/W×K∧L),(+/W×K∨L),(+/W×K⍲L),(+/W×K⍱L),(+/W×~K),(+/W×K=L),+/W×1≠K
(+/W×A<B),(+/W×A≤B),(+/W×A=B),(+/W×A≥B),(+/W×A>B),(+/W×A≠B),+/W×3<A
Z←2|W
Z[15]←2
K∧Z
Z←2|W
Z[1]←2
K∧Z

⍝ 16 places
W←⍳16
K←3>5|7×W
L←2>3|W
A←7|5×W
B←5|3×W
(+/W×K∧L),(+/W×K∨L),(+/W×K⍲L),(+/W×K⍱L),(+/W×~K),(+/W×K=L),+/W×1≠K
(+/W×A<B),(+/W×A≤B),(+/W×A=B),(+/W×A≥B),(+/W×A>B),(+/W×A≠B),+/W×3<A
Z←2|W
Z[16]←2
K∧Z
Z←2|W
Z[1]←2
K∧Z

⍝ 17 places
W←⍳17
K←3>5|7×W
L←2>3|W
A←7|5×W
B←5|3×W
(+/W×K∧L),(+/W×K∨L),(+/W×K⍲L),(+/W×K⍱L),(+/W×~K),(+/W×K=L),+/W×1≠K
(+/W×A<B),(+/W×A≤B),(+/W×A=B),(+/W×A≥B),(+/W×A>B),(+/W×A≠B),+/W×3<A
Z←2|W
Z[17]←2
K∧Z
Z←2|W
Z[2]←2
K∧Z
Z←2|W
Z[1]←2
K∧Z

⍝ 18 places
W←⍳18
K←3>5|7×W
L←2>3|W
A←7|5×W
B←5|3×W
(+/W×K∧L),(+/W×K∨L),(+/W×K⍲L),(+/W×K⍱L),(+/W×~K),(+/W×K=L),+/W×1≠K
(+/W×A<B),(+/W×A≤B),(+/W×A=B),(+/W×A≥B),(+/W×A>B),(+/W×A≠B),+/W×3<A
Z←2|W
Z[18]←2
K∧Z
Z←2|W
Z[3]←2
K∧Z
Z←2|W
Z[2]←2
K∧Z

⍝ 19 places
W←⍳19
K←3>5|7×W
L←2>3|W
A←7|5×W
B←5|3×W
(+/W×K∧L),(+/W×K∨L),(+/W×K⍲L),(+/W×K⍱L),(+/W×~K),(+/W×K=L),+/W×1≠K
(+/W×A<B),(+/W×A≤B),(+/W×A=B),(+/W×A≥B),(+/W×A>B),(+/W×A≠B),+/W×3<A
Z←2|W
Z[19]←2
K∧Z
Z←2|W
Z[4]←2
K∧Z
Z←2|W
Z[3]←2
K∧Z

⍝ 20 places
W←⍳20
K←3>5|7×W
L←2>3|W
A←7|5×W
B←5|3×W
(+/W×K∧L),(+/W×K∨L),(+/W×K⍲L),(+/W×K⍱L),(+/W×~K),(+/W×K=L),+/W×1≠K
(+/W×A<B),(+/W×A≤B),(+/W×A=B),(+/W×A≥B),(+/W×A>B),(+/W×A≠B),+/W×3<A
Z←2|W
Z[20]←2
K∧Z
Z←2|W
Z[5]←2
K∧Z
Z←2|W
Z[4]←2
K∧Z

⍝ 21 places
W←⍳21
K←3>5|7×W
L←2>3|W
A←7|5×W
B←5|3×W
(+/W×K∧L),(+/W×K∨L),(+/W×K⍲L),(+/W×K⍱L),(+/W×~K),(+/W×K=L),+/W×1≠K
(+/W×A<B),(+/W×A≤B),(+/W×A=B),(+/W×A≥B),(+/W×A>B),(+/W×A≠B),+/W×3<A
Z←2|W
Z[21]←2
K∧Z
Z←2|W
Z[6]←2
K∧Z
Z←2|W
Z[5]←2
K∧Z

⍝ 22 places
W←⍳22
K←3>5|7×W
L←2>3|W
A←7|5×W
B←5|3×W
(+/W×K∧L),(+/W×K∨L),(+/W×K⍲L),(+/W×K⍱L),(+/W×~K),(+/W×K=L),+/W×1≠K
(+/W×A<B),(+/W×A≤B),(+/W×A=B),(+/W×A≥B),(+/W×A>B),(+/W×A≠B),+/W×3<A
Z←2|W
Z[22]←2
K∧Z
Z←2|W
Z[7]←2
K∧Z
Z←2|W
Z[6]←2
K∧Z

⍝ 23 places
W←⍳23
K←3>5|7×W
L←2>3|W
A←7|5×W
B←5|3×W
(+/W×K∧L),(+/W×K∨L),(+/W×K⍲L),(+/W×K⍱L),(+/W×~K),(+/W×K=L),+/W×1≠K
(+/W×A<B),(+/W×A≤B),(+/W×A=B),(+/W×A≥B),(+/W×A>B),(+/W×A≠B),+/W×3<A
Z←2|W
Z[23]←2
K∧Z
Z←2|W
Z[8]←2
K∧Z
Z←2|W
Z[7]←2
K∧Z

⍝ 24 places
W←⍳24
K←3>5|7×W
L←2>3|W
A←7|5×W
B←5|3×W
(+/W×K∧L),(+/W×K∨L),(+/W×K⍲L),(+/W×K⍱L),(+/W×~K),(+/W×K=L),+/W×1≠K
(+/W×A<B),(+/W×A≤B),(+/W×A=B),(+/W×A≥B),(+/W×A>B),(+/W×A≠B),+/W×3<A
Z←2|W
Z[24]←2
K∧Z
Z←2|W
Z[9]←2
K∧Z
Z←2|W
Z[8]←2
K∧Z

⍝ 25 places
W←⍳25
K←3>5|7×W
L←2>3|W
A←7|5×W
B←5|3×W
(+/W×K∧L),(+/W×K∨L),(+/W×K⍲L),(+/W×K⍱L),(+/W×~K),(+/W×K=L),+/W×1≠K
(+/W×A<B),(+/W×A≤B),(+/W×A=B),(+/W×A≥B),(+/W×A>B),(+/W×A≠B),+/W×3<A
Z←2|W
Z[25]←2
K∧Z
Z←2|W
Z[10]←2
K∧Z
Z←2|W
Z[9]←2
K∧Z

⍝ 26 places
W←⍳26
K←3>5|7×W
L←2>3|W
A←7|5×W
B←5|3×W
(+/W×K∧L),(+/W×K∨L),(+/W×K⍲L),(+/W×K⍱L),(+/W×~K),(+/W×K=L),+/W×1≠K
(+/W×A<B),(+/W×A≤B),(+/W×A=B),(+/W×A≥B),(+/W×A>B),(+/W×A≠B),+/W×3<A
Z←2|W
Z[26]←2
K∧Z
Z←2|W
Z[11]←2
K∧Z
Z←2|W
Z[10]←2
K∧Z

⍝ 27 places
W←⍳27
K←3>5|7×W
L←2>3|W
A←7|5×W
B←5|3×W
(+/W×K∧L),(+/W×K∨L),(+/W×K⍲L),(+/W×K⍱L),(+/W×~K),(+/W×K=L),+/W×1≠K
(+/W×A<B),(+/W×A≤B),(+/W×A=B),(+/W×A≥B),(+/W×A>B),(+/W×A≠B),+/W×3<A
Z←2|W
Z[27]←2
K∧Z
Z←2|W
Z[12]←2
K∧Z
Z←2|W
Z[11]←2
K∧Z

⍝ 28 places
W←⍳28
K←3>5|7×W
L←2>3|W
A←7|5×W
B←5|3×W
(+/W×K∧L),(+/W×K∨L),(+/W×K⍲L),(+/W×K⍱L),(+/W×~K),(+/W×K=L),+/W×1≠K
(+/W×A<B),(+/W×A≤B),(+/W×A=B),(+/W×A≥B),(+/W×A>B),(+/W×A≠B),+/W×3<A
Z←2|W
Z[28]←2
K∧Z
Z←2|W
Z[13]←2
K∧Z
Z←2|W
Z[12]←2
K∧Z

⍝ 29 places
W←⍳29
K←3>5|7×W
L←2>3|W
A←7|5×W
B←5|3×W
(+/W×K∧L),(+/W×K∨L),(+/W×K⍲L),(+/W×K⍱L),(+/W×~K),(+/W×K=L),+/W×1≠K
(+/W×A<B),(+/W×A≤B),(+/W×A=B),(+/W×A≥B),(+/W×A>B),(+/W×A≠B),+/W×3<A
Z←2|W
Z[29]←2
K∧Z
Z←2|W
Z[14]←2
K∧Z
Z←2|W
Z[13]←2
K∧Z

⍝ 30 places
W←⍳30
K←3>5|7×W
L←2>3|W
A←7|5×W
B←5|3×W
(+/W×K∧L),(+/W×K∨L),(+/W×K⍲L),(+/W×K⍱L),(+/W×~K),(+/W×K=L),+/W×1≠K
(+/W×A<B),(+/W×A≤B),(+/W×A=B),(+/W×A≥B),(+/W×A>B),(+/W×A≠B),+/W×3<A
Z←2|W
Z[30]←2
K∧Z
Z←2|W
Z[15]←2
K∧Z
Z←2|W
Z[14]←2
K∧Z

⍝ 31 places
W←⍳31
K←3>5|7×W
L←2>3|W
A←7|5×W
B←5|3×W
(+/W×K∧L),(+/W×K∨L),(+/W×K⍲L),(+/W×K⍱L),(+/W×~K),(+/W×K=L),+/W×1≠K
(+/W×A<B),(+/W×A≤B),(+/W×A=B),(+/W×A≥B),(+/W×A>B),(+/W×A≠B),+/W×3<A
Z←2|W
Z[31]←2
K∧Z
Z←2|W
Z[16]←2
K∧Z
Z←2|W
Z[15]←2
K∧Z

⍝ 32 places
W←⍳32
K←3>5|7×W
L←2>3|W
A←7|5×W
B←5|3×W
(+/W×K∧L),(+/W×K∨L),(+/W×K⍲L),(+/W×K⍱L),(+/W×~K),(+/W×K=L),+/W×1≠K
(+/W×A<B),(+/W×A≤B),(+/W×A=B),(+/W×A≥B),(+/W×A>B),(+/W×A≠B),+/W×3<A
Z←2|W
Z[32]←2
K∧Z
Z←2|W
Z[17]←2
K∧Z
Z←2|W
Z[16]←2
K∧Z

⍝ 33 places
W←⍳33
K←3>5|7×W
L←2>3|W
A←7|5×W
B←5|3×W
(+/W×K∧L),(+/W×K∨L),(+/W×K⍲L),(+/W×K⍱L),(+/W×~K),(+/W×K=L),+/W×1≠K
(+/W×A<B),(+/W×A≤B),(+/W×A=B),(+/W×A≥B),(+/W×A>B),(+/W×A≠B),+/W×3<A
Z←2|W
Z[33]←2
K∧Z
Z←2|W
Z[18]←2
K∧Z
Z←2|W
Z[17]←2
K∧Z

⍝ 34 places
W←⍳34
K←3>5|7×W
L←2>3|W
A←7|5×W
B←5|3×W
(+/W×K∧L),(+/W×K∨L),(+/W×K⍲L),(+/W×K⍱L),(+/W×~K),(+/W×K=L),+/W×1≠K
(+/W×A<B),(+/W×A≤B),(+/W×A=B),(+/W×A≥B),(+/W×A>B),(+/W×A≠B),+/W×3<A
Z←2|W
Z[34]←2
K∧Z
Z←2|W
Z[19]←2
K∧Z
Z←2|W
Z[18]←2
K∧Z

⍝ 35 places
W←⍳35
K←3>5|7×W
L←2>3|W
A←7|5×W
B←5|3×W
(+/W×K∧L),(+/W×K∨L),(+/W×K⍲L),(+/W×K⍱L),(+/W×~K),(+/W×K=L),+/W×1≠K
(+/W×A<B),(+/W×A≤B),(+/W×A=B),(+/W×A≥B),(+/W×A>B),(+/W×A≠B),+/W×3<A
Z←2|W
Z[35]←2
K∧Z
Z←2|W
Z[20]←2
K∧Z
Z←2|W
Z[19]←2
K∧Z

⍝ 36 places
W←⍳36
K←3>5|7×W
L←2>3|W
A←7|5×W
B←5|3×W
(+/W×K∧L),(+/W×K∨L),(+/W×K⍲L),(+/W×K⍱L),(+/W×~K),(+/W×K=L),+/W×1≠K
(+/W×A<B),(+/W×A≤B),(+/W×A=B),(+/W×A≥B),(+/W×A>B),(+/W×A≠B),+/W×3<A
Z←2|W
Z[36]←2
K∧Z
Z←2|W
Z[21]←2
K∧Z
Z←2|W
Z[20]←2
K∧Z

⍝ 37 places
W←⍳37
K←3>5|7×W
L←2>3|W
A←7|5×W
B←5|3×W
(+/W×K∧L),(+/W×K∨L),(+/W×K⍲L),(+/W×K⍱L),(+/W×~K),(+/W×K=L),+/W×1≠K
(+/W×A<B),(+/W×A≤B),(+/W×A=B),(+/W×A≥B),(+/W×A>B),(+/W×A≠B),+/W×3<A
Z←2|W
Z[37]←2
K∧Z
Z←2|W
Z[22]←2
K∧Z
Z←2|W
Z[21]←2
K∧Z

⍝ 38 places
W←⍳38
K←3>5|7×W
L←2>3|W
A←7|5×W
B←5|3×W
(+/W×K∧L),(+/W×K∨L),(+/W×K⍲L),(+/W×K⍱L),(+/W×~K),(+/W×K=L),+/W×1≠K
(+/W×A<B),(+/W×A≤B),(+/W×A=B),(+/W×A≥B),(+/W×A>B),(+/W×A≠B),+/W×3<A
Z←2|W
Z[38]←2
K∧Z
Z←2|W
Z[23]←2
K∧Z
Z←2|W
Z[22]←2
K∧Z

⍝ 39 places
W←⍳39
K←3>5|7×W
L←2>3|W
A←7|5×W
B←5|3×W
(+/W×K∧L),(+/W×K∨L),(+/W×K⍲L),(+/W×K⍱L),(+/W×~K),(+/W×K=L),+/W×1≠K
(+/W×A<B),(+/W×A≤B),(+/W×A=B),(+/W×A≥B),(+/W×A>B),(+/W×A≠B),+/W×3<A
Z←2|W
Z[39]←2
K∧Z
Z←2|W
Z[24]←2
K∧Z
Z←2|W
Z[23]←2
K∧Z

⍝ 40 places
W←⍳40
K←3>5|7×W
L←2>3|W
A←7|5×W
B←5|3×W
(+/W×K∧L),(+/W×K∨L),(+/W×K⍲L),(+/W×K⍱L),(+/W×~K),(+/W×K=L),+/W×1≠K
(+/W×A<B),(+/W×A≤B),(+/W×A=B),(+/W×A≥B),(+/W×A>B),(+/W×A≠B),+/W×3<A
Z←2|W
Z[40]←2
K∧Z
Z←2|W
Z[25]←2
K∧Z
Z←2|W
Z[24]←2
K∧Z

⍝ 41 places
W←⍳41
K←3>5|7×W
L←2>3|W
A←7|5×W
B←5|3×W
(+/W×K∧L),(+/W×K∨L),(+/W×K⍲L),(+/W×K⍱L),(+/W×~K),(+/W×K=L),+/W×1≠K
(+/W×A<B),(+/W×A≤B),(+/W×A=B),(+/W×A≥B),(+/W×A>B),(+/W×A≠B),+/W×3<A
Z←2|W
Z[41]←2
K∧Z
Z←2|W
Z[26]←2
K∧Z
Z←2|W
Z[25]←2
K∧Z

⍝ 42 places
W←⍳42
K←3>5|7×W
L←2>3|W
A←7|5×W
B←5|3×W
(+/W×K∧L),(+/W×K∨L),(+/W×K⍲L),(+/W×K⍱L),(+/W×~K),(+/W×K=L),+/W×1≠K
(+/W×A<B),(+/W×A≤B),(+/W×A=B),(+/W×A≥B),(+/W×A>B),(+/W×A≠B),+/W×3<A
Z←2|W
Z[42]←2
K∧Z
Z←2|W
Z[27]←2
K∧Z
Z←2|W
Z[26]←2
K∧Z

⍝ 43 places
W←⍳43
K←3>5|7×W
L←2>3|W
A←7|5×W
B←5|3×W
(+/W×K∧L),(+/W×K∨L),(+/W×K⍲L),(+/W×K⍱L),(+/W×~K),(+/W×K=L),+/W×1≠K
(+/W×A<B),(+/W×A≤B),(+/W×A=B),(+/W×A≥B),(+/W×A>B),(+/W×A≠B),+/W×3<A
Z←2|W
Z[43]←2
K∧Z
Z←2|W
Z[28]←2
K∧Z
Z←2|W
Z[27]←2
K∧Z

⍝ 44 places
W←⍳44
K←3>5|7×W
L←2>3|W
A←7|5×W
B←5|3×W
(+/W×K∧L),(+/W×K∨L),(+/W×K⍲L),(+/W×K⍱L),(+/W×~K),(+/W×K=L),+/W×1≠K
(+/W×A<B),(+/W×A≤B),(+/W×A=B),(+/W×A≥B),(+/W×A>B),(+/W×A≠B),+/W×3<A
Z←2|W
Z[44]←2
K∧Z
Z←2|W
Z[29]←2
K∧Z
Z←2|W
Z[28]←2
K∧Z

⍝ 45 places
W←⍳45
K←3>5|7×W
L←2>3|W
A←7|5×W
B←5|3×W
(+/W×K∧L),(+/W×K∨L),(+/W×K⍲L),(+/W×K⍱L),(+/W×~K),(+/W×K=L),+/W×1≠K
(+/W×A<B),(+/W×A≤B),(+/W×A=B),(+/W×A≥B),(+/W×A>B),(+/W×A≠B),+/W×3<A
Z←2|W
Z[45]←2
K∧Z
Z←2|W
Z[30]←2
K∧Z
Z←2|W
Z[29]←2
K∧Z

⍝ 46 places
W←⍳46
K←3>5|7×W
L←2>3|W
A←7|5×W
B←5|3×W
(+/W×K∧L),(+/W×K∨L),(+/W×K⍲L),(+/W×K⍱L),(+/W×~K),(+/W×K=L),+/W×1≠K
(+/W×A<B),(+/W×A≤B),(+/W×A=B),(+/W×A≥B),(+/W×A>B),(+/W×A≠B),+/W×3<A
Z←2|W
Z[46]←2
K∧Z
Z←2|W
Z[31]←2
K∧Z
Z←2|W
Z[30]←2
K∧Z

⍝ 47 places
W←⍳47
K←3>5|7×W
L←2>3|W
A←7|5×W
B←5|3×W
(+/W×K∧L),(+/W×K∨L),(+/W×K⍲L),(+/W×K⍱L),(+/W×~K),(+/W×K=L),+/W×1≠K
(+/W×A<B),(+/W×A≤B),(+/W×A=B),(+/W×A≥B),(+/W×A>B),(+/W×A≠B),+/W×3<A
Z←2|W
Z[47]←2
K∧Z
Z←2|W
Z[32]←2
K∧Z
Z←2|W
Z[31]←2
K∧Z

⍝ 48 places
W←⍳48
K←3>5|7×W
L←2>3|W
A←7|5×W
B←5|3×W
(+/W×K∧L),(+/W×K∨L),(+/W×K⍲L),(+/W×K⍱L),(+/W×~K),(+/W×K=L),+/W×1≠K
(+/W×A<B),(+/W×A≤B),(+/W×A=B),(+/W×A≥B),(+/W×A>B),(+/W×A≠B),+/W×3<A
Z←2|W
Z[48]←2
K∧Z
Z←2|W
Z[33]←2
K∧Z
Z←2|W
Z[32]←2
K∧Z

⍝ 49 places
W←⍳49
K←3>5|7×W
L←2>3|W
A←7|5×W
B←5|3×W
(+/W×K∧L),(+/W×K∨L),(+/W×K⍲L),(+/W×K⍱L),(+/W×~K),(+/W×K=L),+/W×1≠K
(+/W×A<B),(+/W×A≤B),(+/W×A=B),(+/W×A≥B),(+/W×A>B),(+/W×A≠B),+/W×3<A
Z←2|W
Z[49]←2
K∧Z
Z←2|W
Z[34]←2
K∧Z
Z←2|W
Z[33]←2
K∧Z

⍝ 50 places
W←⍳50
K←3>5|7×W
L←2>3|W
A←7|5×W
B←5|3×W
(+/W×K∧L),(+/W×K∨L),(+/W×K⍲L),(+/W×K⍱L),(+/W×~K),(+/W×K=L),+/W×1≠K
(+/W×A<B),(+/W×A≤B),(+/W×A=B),(+/W×A≥B),(+/W×A>B),(+/W×A≠B),+/W×3<A
Z←2|W
Z[50]←2
K∧Z
Z←2|W
Z[35]←2
K∧Z
Z←2|W
Z[34]←2
K∧Z

⍝ 51 places
W←⍳51
K←3>5|7×W
L←2>3|W
A←7|5×W
B←5|3×W
(+/W×K∧L),(+/W×K∨L),(+/W×K⍲L),(+/W×K⍱L),(+/W×~K),(+/W×K=L),+/W×1≠K
(+/W×A<B),(+/W×A≤B),(+/W×A=B),(+/W×A≥B),(+/W×A>B),(+/W×A≠B),+/W×3<A

⍝ 52 places
W←⍳52
K←3>5|7×W
L←2>3|W
A←7|5×W
B←5|3×W
(+/W×K∧L),(+/W×K∨L),(+/W×K⍲L),(+/W×K⍱L),(+/W×~K),(+/W×K=L),+/W×1≠K
(+/W×A<B),(+/W×A≤B),(+/W×A=B),(+/W×A≥B),(+/W×A>B),(+/W×A≠B),+/W×3<A

⍝ 53 places
W←⍳53
K←3>5|7×W
L←2>3|W
A←7|5×W
B←5|3×W
(+/W×K∧L),(+/W×K∨L),(+/W×K⍲L),(+/W×K⍱L),(+/W×~K),(+/W×K=L),+/W×1≠K
(+/W×A<B),(+/W×A≤B),(+/W×A=B),(+/W×A≥B),(+/W×A>B),(+/W×A≠B),+/W×3<A

⍝ 54 places
W←⍳54
K←3>5|7×W
L←2>3|W
A←7|5×W
B←5|3×W
(+/W×K∧L),(+/W×K∨L),(+/W×K⍲L),(+/W×K⍱L),(+/W×~K),(+/W×K=L),+/W×1≠K
(+/W×A<B),(+/W×A≤B),(+/W×A=B),(+/W×A≥B),(+/W×A>B),(+/W×A≠B),+/W×3<A

⍝ 55 places
W←⍳55
K←3>5|7×W
L←2>3|W
A←7|5×W
B←5|3×W
(+/W×K∧L),(+/W×K∨L),(+/W×K⍲L),(+/W×K⍱L),(+/W×~K),(+/W×K=L),+/W×1≠K
(+/W×A<B),(+/W×A≤B),(+/W×A=B),(+/W×A≥B),(+/W×A>B),(+/W×A≠B),+/W×3<A

⍝ 56 places
W←⍳56
K←3>5|7×W
L←2>3|W
A←7|5×W
B←5|3×W
(+/W×K∧L),(+/W×K∨L),(+/W×K⍲L),(+/W×K⍱L),(+/W×~K),(+/W×K=L),+/W×1≠K
(+/W×A<B),(+/W×A≤B),(+/W×A=B),(+/W×A≥B),(+/W×A>B),(+/W×A≠B),+/W×3<A

⍝ 57 places
W←⍳57
K←3>5|7×W
L←2>3|W
A←7|5×W
B←5|3×W
(+/W×K∧L),(+/W×K∨L),(+/W×K⍲L),(+/W×K⍱L),(+/W×~K),(+/W×K=L),+/W×1≠K
(+/W×A<B),(+/W×A≤B),(+/W×A=B),(+/W×A≥B),(+/W×A>B),(+/W×A≠B),+/W×3<A

⍝ 58 places
W←⍳58
K←3>5|7×W
L←2>3|W
A←7|5×W
B←5|3×W
(+/W×K∧L),(+/W×K∨L),(+/W×K⍲L),(+/W×K⍱L),(+/W×~K),(+/W×K=L),+/W×1≠K
(+/W×A<B),(+/W×A≤B),(+/W×A=B),(+/W×A≥B),(+/W×A>B),(+/W×A≠B),+/W×3<A

⍝ 59 places
W←⍳59
K←3>5|7×W
L←2>3|W
A←7|5×W
B←5|3×W
(+/W×K∧L),(+/W×K∨L),(+/W×K⍲L),(+/W×K⍱L),(+/W×~K),(+/W×K=L),+/W×1≠K
(+/W×A<B),(+/W×A≤B),(+/W×A=B),(+/W×A≥B),(+/W×A>B),(+/W×A≠B),+/W×3<A

⍝ 60 places
W←⍳60
K←3>5|7×W
L←2>3|W
A←7|5×W
B←5|3×W
(+/W×K∧L),(+/W×K∨L),(+/W×K⍲L),(+/W×K⍱L),(+/W×~K),(+/W×K=L),+/W×1≠K
(+/W×A<B),(+/W×A≤B),(+/W×A=B),(+/W×A≥B),(+/W×A>B),(+/W×A≠B),+/W×3<A

⍝ 61 places
W←⍳61
K←3>5|7×W
L←2>3|W
A←7|5×W
B←5|3×W
(+/W×K∧L),(+/W×K∨L),(+/W×K⍲L),(+/W×K⍱L),(+/W×~K),(+/W×K=L),+/W×1≠K
(+/W×A<B),(+/W×A≤B),(+/W×A=B),(+/W×A≥B),(+/W×A>B),(+/W×A≠B),+/W×3<A

⍝ 62 places
W←⍳62
K←3>5|7×W
L←2>3|W
A←7|5×W
B←5|3×W
(+/W×K∧L),(+/W×K∨L),(+/W×K⍲L),(+/W×K⍱L),(+/W×~K),(+/W×K=L),+/W×1≠K
(+/W×A<B),(+/W×A≤B),(+/W×A=B),(+/W×A≥B),(+/W×A>B),(+/W×A≠B),+/W×3<A

⍝ 63 places
W←⍳63
K←3>5|7×W
L←2>3|W
A←7|5×W
B←5|3×W
(+/W×K∧L),(+/W×K∨L),(+/W×K⍲L),(+/W×K⍱L),(+/W×~K),(+/W×K=L),+/W×1≠K
(+/W×A<B),(+/W×A≤B),(+/W×A=B),(+/W×A≥B),(+/W×A>B),(+/W×A≠B),+/W×3<A

⍝ 64 places
W←⍳64
K←3>5|7×W
L←2>3|W
A←7|5×W
B←5|3×W
(+/W×K∧L),(+/W×K∨L),(+/W×K⍲L),(+/W×K⍱L),(+/W×~K),(+/W×K=L),+/W×1≠K
(+/W×A<B),(+/W×A≤B),(+/W×A=B),(+/W×A≥B),(+/W×A>B),(+/W×A≠B),+/W×3<A

⍝ 65 places
W←⍳65
K←3>5|7×W
L←2>3|W
A←7|5×W
B←5|3×W
(+/W×K∧L),(+/W×K∨L),(+/W×K⍲L),(+/W×K⍱L),(+/W×~K),(+/W×K=L),+/W×1≠K
(+/W×A<B),(+/W×A≤B),(+/W×A=B),(+/W×A≥B),(+/W×A>B),(+/W×A≠B),+/W×3<A

⍝ 66 places
W←⍳66
K←3>5|7×W
L←2>3|W
A←7|5×W
B←5|3×W
(+/W×K∧L),(+/W×K∨L),(+/W×K⍲L),(+/W×K⍱L),(+/W×~K),(+/W×K=L),+/W×1≠K
(+/W×A<B),(+/W×A≤B),(+/W×A=B),(+/W×A≥B),(+/W×A>B),(+/W×A≠B),+/W×3<A

⍝ 67 places
W←⍳67
K←3>5|7×W
L←2>3|W
A←7|5×W
B←5|3×W
(+/W×K∧L),(+/W×K∨L),(+/W×K⍲L),(+/W×K⍱L),(+/W×~K),(+/W×K=L),+/W×1≠K
(+/W×A<B),(+/W×A≤B),(+/W×A=B),(+/W×A≥B),(+/W×A>B),(+/W×A≠B),+/W×3<A

⍝ 68 places
W←⍳68
K←3>5|7×W
L←2>3|W
A←7|5×W
B←5|3×W
(+/W×K∧L),(+/W×K∨L),(+/W×K⍲L),(+/W×K⍱L),(+/W×~K),(+/W×K=L),+/W×1≠K
(+/W×A<B),(+/W×A≤B),(+/W×A=B),(+/W×A≥B),(+/W×A>B),(+/W×A≠B),+/W×3<A

⍝ 69 places
W←⍳69
K←3>5|7×W
L←2>3|W
A←7|5×W
B←5|3×W
(+/W×K∧L),(+/W×K∨L),(+/W×K⍲L),(+/W×K⍱L),(+/W×~K),(+/W×K=L),+/W×1≠K
(+/W×A<B),(+/W×A≤B),(+/W×A=B),(+/W×A≥B),(+/W×A>B),(+/W×A≠B),+/W×3<A

⍝ 70 places
W←⍳70
K←3>5|7×W
L←2>3|W
A←7|5×W
B←5|3×W
(+/W×K∧L),(+/W×K∨L),(+/W×K⍲L),(+/W×K⍱L),(+/W×~K),(+/W×K=L),+/W×1≠K
(+/W×A<B),(+/W×A≤B),(+/W×A=B),(+/W×A≥B),(+/W×A>B),(+/W×A≠B),+/W×3<A

⍝ 513 places
W←⍳513
K←3>5|7×W
L←2>3|W
A←7|5×W
B←5|3×W
(+/W×K∧L),(+/W×K∨L),(+/W×K⍲L),(+/W×K⍱L),(+/W×~K),(+/W×K=L),+/W×1≠K
(+/W×A<B),(+/W×A≤B),(+/W×A=B),(+/W×A≥B),(+/W×A>B),(+/W×A≠B),+/W×3<A
Z←2|W
Z[513]←2
K∧Z
Z←2|W
Z[498]←2
K∧Z
Z←2|W
Z[497]←2
K∧Z

⍝ 514 places
W←⍳514
K←3>5|7×W
L←2>3|W
A←7|5×W
B←5|3×W
(+/W×K∧L),(+/W×K∨L),(+/W×K⍲L),(+/W×K⍱L),(+/W×~K),(+/W×K=L),+/W×1≠K
(+/W×A<B),(+/W×A≤B),(+/W×A=B),(+/W×A≥B),(+/W×A>B),(+/W×A≠B),+/W×3<A

⍝ 515 places
W←⍳515
K←3>5|7×W
L←2>3|W
A←7|5×W
B←5|3×W
(+/W×K∧L),(+/W×K∨L),(+/W×K⍲L),(+/W×K⍱L),(+/W×~K),(+/W×K=L),+/W×1≠K
(+/W×A<B),(+/W×A≤B),(+/W×A=B),(+/W×A≥B),(+/W×A>B),(+/W×A≠B),+/W×3<A

⍝ 516 places
W←⍳516
K←3>5|7×W
L←2>3|W
A←7|5×W
B←5|3×W
(+/W×K∧L),(+/W×K∨L),(+/W×K⍲L),(+/W×K⍱L),(+/W×~K),(+/W×K=L),+/W×1≠K
(+/W×A<B),(+/W×A≤B),(+/W×A=B),(+/W×A≥B),(+/W×A>B),(+/W×A≠B),+/W×3<A

⍝ 517 places
W←⍳517
K←3>5|7×W
L←2>3|W
A←7|5×W
B←5|3×W
(+/W×K∧L),(+/W×K∨L),(+/W×K⍲L),(+/W×K⍱L),(+/W×~K),(+/W×K=L),+/W×1≠K
(+/W×A<B),(+/W×A≤B),(+/W×A=B),(+/W×A≥B),(+/W×A>B),(+/W×A≠B),+/W×3<A

⍝ 518 places
W←⍳518
K←3>5|7×W
L←2>3|W
A←7|5×W
B←5|3×W
(+/W×K∧L),(+/W×K∨L),(+/W×K⍲L),(+/W×K⍱L),(+/W×~K),(+/W×K=L),+/W×1≠K
(+/W×A<B),(+/W×A≤B),(+/W×A=B),(+/W×A≥B),(+/W×A>B),(+/W×A≠B),+/W×3<A

⍝ 519 places
W←⍳519
K←3>5|7×W
L←2>3|W
A←7|5×W
B←5|3×W
(+/W×K∧L),(+/W×K∨L),(+/W×K⍲L),(+/W×K⍱L),(+/W×~K),(+/W×K=L),+/W×1≠K
(+/W×A<B),(+/W×A≤B),(+/W×A=B),(+/W×A≥B),(+/W×A>B),(+/W×A≠B),+/W×3<A

⍝ 520 places
W←⍳520
K←3>5|7×W
L←2>3|W
A←7|5×W
B←5|3×W
(+/W×K∧L),(+/W×K∨L),(+/W×K⍲L),(+/W×K⍱L),(+/W×~K),(+/W×K=L),+/W×1≠K
(+/W×A<B),(+/W×A≤B),(+/W×A=B),(+/W×A≥B),(+/W×A>B),(+/W×A≠B),+/W×3<A

⍝ 521 places
W←⍳521
K←3>5|7×W
L←2>3|W
A←7|5×W
B←5|3×W
(+/W×K∧L),(+/W×K∨L),(+/W×K⍲L),(+/W×K⍱L),(+/W×~K),(+/W×K=L),+/W×1≠K
(+/W×A<B),(+/W×A≤B),(+/W×A=B),(+/W×A≥B),(+/W×A>B),(+/W×A≠B),+/W×3<A

⍝ 522 places
W←⍳522
K←3>5|7×W
L←2>3|W
A←7|5×W
B←5|3×W
(+/W×K∧L),(+/W×K∨L),(+/W×K⍲L),(+/W×K⍱L),(+/W×~K),(+/W×K=L),+/W×1≠K
(+/W×A<B),(+/W×A≤B),(+/W×A=B),(+/W×A≥B),(+/W×A>B),(+/W×A≠B),+/W×3<A

⍝ 523 places
W←⍳523
K←3>5|7×W
L←2>3|W
A←7|5×W
B←5|3×W
(+/W×K∧L),(+/W×K∨L),(+/W×K⍲L),(+/W×K⍱L),(+/W×~K),(+/W×K=L),+/W×1≠K
(+/W×A<B),(+/W×A≤B),(+/W×A=B),(+/W×A≥B),(+/W×A>B),(+/W×A≠B),+/W×3<A

⍝ 524 places
W←⍳524
K←3>5|7×W
L←2>3|W
A←7|5×W
B←5|3×W
(+/W×K∧L),(+/W×K∨L),(+/W×K⍲L),(+/W×K⍱L),(+/W×~K),(+/W×K=L),+/W×1≠K
(+/W×A<B),(+/W×A≤B),(+/W×A=B),(+/W×A≥B),(+/W×A>B),(+/W×A≠B),+/W×3<A

⍝ 525 places
W←⍳525
K←3>5|7×W
L←2>3|W
A←7|5×W
B←5|3×W
(+/W×K∧L),(+/W×K∨L),(+/W×K⍲L),(+/W×K⍱L),(+/W×~K),(+/W×K=L),+/W×1≠K
(+/W×A<B),(+/W×A≤B),(+/W×A=B),(+/W×A≥B),(+/W×A>B),(+/W×A≠B),+/W×3<A

⍝ 526 places
W←⍳526
K←3>5|7×W
L←2>3|W
A←7|5×W
B←5|3×W
(+/W×K∧L),(+/W×K∨L),(+/W×K⍲L),(+/W×K⍱L),(+/W×~K),(+/W×K=L),+/W×1≠K
(+/W×A<B),(+/W×A≤B),(+/W×A=B),(+/W×A≥B),(+/W×A>B),(+/W×A≠B),+/W×3<A

⍝ 527 places
W←⍳527
K←3>5|7×W
L←2>3|W
A←7|5×W
B←5|3×W
(+/W×K∧L),(+/W×K∨L),(+/W×K⍲L),(+/W×K⍱L),(+/W×~K),(+/W×K=L),+/W×1≠K
(+/W×A<B),(+/W×A≤B),(+/W×A=B),(+/W×A≥B),(+/W×A>B),(+/W×A≠B),+/W×3<A

⍝ 528 places
W←⍳528
K←3>5|7×W
L←2>3|W
A←7|5×W
B←5|3×W
(+/W×K∧L),(+/W×K∨L),(+/W×K⍲L),(+/W×K⍱L),(+/W×~K),(+/W×K=L),+/W×1≠K
(+/W×A<B),(+/W×A≤B),(+/W×A=B),(+/W×A≥B),(+/W×A>B),(+/W×A≠B),+/W×3<A

⍝ 529 places
W←⍳529
K←3>5|7×W
L←2>3|W
A←7|5×W
B←5|3×W
(+/W×K∧L),(+/W×K∨L),(+/W×K⍲L),(+/W×K⍱L),(+/W×~K),(+/W×K=L),+/W×1≠K
(+/W×A<B),(+/W×A≤B),(+/W×A=B),(+/W×A≥B),(+/W×A>B),(+/W×A≠B),+/W×3<A
Z←2|W
Z[529]←2
K∧Z
Z←2|W
Z[514]←2
K∧Z
Z←2|W
Z[513]←2
K∧Z

⍝ 530 places
W←⍳530
K←3>5|7×W
L←2>3|W
A←7|5×W
B←5|3×W
(+/W×K∧L),(+/W×K∨L),(+/W×K⍲L),(+/W×K⍱L),(+/W×~K),(+/W×K=L),+/W×1≠K
(+/W×A<B),(+/W×A≤B),(+/W×A=B),(+/W×A≥B),(+/W×A>B),(+/W×A≠B),+/W×3<A

⍝ 531 places
W←⍳531
K←3>5|7×W
L←2>3|W
A←7|5×W
B←5|3×W
(+/W×K∧L),(+/W×K∨L),(+/W×K⍲L),(+/W×K⍱L),(+/W×~K),(+/W×K=L),+/W×1≠K
(+/W×A<B),(+/W×A≤B),(+/W×A=B),(+/W×A≥B),(+/W×A>B),(+/W×A≠B),+/W×3<A

⍝ 532 places
W←⍳532
K←3>5|7×W
L←2>3|W
A←7|5×W
B←5|3×W
(+/W×K∧L),(+/W×K∨L),(+/W×K⍲L),(+/W×K⍱L),(+/W×~K),(+/W×K=L),+/W×1≠K
(+/W×A<B),(+/W×A≤B),(+/W×A=B),(+/W×A≥B),(+/W×A>B),(+/W×A≠B),+/W×3<A

⍝ 533 places
W←⍳533
K←3>5|7×W
L←2>3|W
A←7|5×W
B←5|3×W
(+/W×K∧L),(+/W×K∨L),(+/W×K⍲L),(+/W×K⍱L),(+/W×~K),(+/W×K=L),+/W×1≠K
(+/W×A<B),(+/W×A≤B),(+/W×A=B),(+/W×A≥B),(+/W×A>B),(+/W×A≠B),+/W×3<A

⍝ 534 places
W←⍳534
K←3>5|7×W
L←2>3|W
A←7|5×W
B←5|3×W
(+/W×K∧L),(+/W×K∨L),(+/W×K⍲L),(+/W×K⍱L),(+/W×~K),(+/W×K=L),+/W×1≠K
(+/W×A<B),(+/W×A≤B),(+/W×A=B),(+/W×A≥B),(+/W×A>B),(+/W×A≠B),+/W×3<A

⍝ 535 places
W←⍳535
K←3>5|7×W
L←2>3|W
A←7|5×W
B←5|3×W
(+/W×K∧L),(+/W×K∨L),(+/W×K⍲L),(+/W×K⍱L),(+/W×~K),(+/W×K=L),+/W×1≠K
(+/W×A<B),(+/W×A≤B),(+/W×A=B),(+/W×A≥B),(+/W×A>B),(+/W×A≠B),+/W×3<A

⍝ 536 places
W←⍳536
K←3>5|7×W
L←2>3|W
A←7|5×W
B←5|3×W
(+/W×K∧L),(+/W×K∨L),(+/W×K⍲L),(+/W×K⍱L),(+/W×~K),(+/W×K=L),+/W×1≠K
(+/W×A<B),(+/W×A≤B),(+/W×A=B),(+/W×A≥B),(+/W×A>B),(+/W×A≠B),+/W×3<A

⍝ 537 places
W←⍳537
K←3>5|7×W
L←2>3|W
A←7|5×W
B←5|3×W
(+/W×K∧L),(+/W×K∨L),(+/W×K⍲L),(+/W×K⍱L),(+/W×~K),(+/W×K=L),+/W×1≠K
(+/W×A<B),(+/W×A≤B),(+/W×A=B),(+/W×A≥B),(+/W×A>B),(+/W×A≠B),+/W×3<A

⍝ 538 places
W←⍳538
K←3>5|7×W
L←2>3|W
A←7|5×W
B←5|3×W
(+/W×K∧L),(+/W×K∨L),(+/W×K⍲L),(+/W×K⍱L),(+/W×~K),(+/W×K=L),+/W×1≠K
(+/W×A<B),(+/W×A≤B),(+/W×A=B),(+/W×A≥B),(+/W×A>B),(+/W×A≠B),+/W×3<A

⍝ 539 places
W←⍳539
K←3>5|7×W
L←2>3|W
A←7|5×W
B←5|3×W
(+/W×K∧L),(+/W×K∨L),(+/W×K⍲L),(+/W×K⍱L),(+/W×~K),(+/W×K=L),+/W×1≠K
(+/W×A<B),(+/W×A≤B),(+/W×A=B),(+/W×A≥B),(+/W×A>B),(+/W×A≠B),+/W×3<A

⍝ 540 places
W←⍳540
K←3>5|7×W
L←2>3|W
A←7|5×W
B←5|3×W
(+/W×K∧L),(+/W×K∨L),(+/W×K⍲L),(+/W×K⍱L),(+/W×~K),(+/W×K=L),+/W×1≠K
(+/W×A<B),(+/W×A≤B),(+/W×A=B),(+/W×A≥B),(+/W×A>B),(+/W×A≠B),+/W×3<A

⍝ 541 places
W←⍳541
K←3>5|7×W
L←2>3|W
A←7|5×W
B←5|3×W
(+/W×K∧L),(+/W×K∨L),(+/W×K⍲L),(+/W×K⍱L),(+/W×~K),(+/W×K=L),+/W×1≠K
(+/W×A<B),(+/W×A≤B),(+/W×A=B),(+/W×A≥B),(+/W×A>B),(+/W×A≠B),+/W×3<A

⍝ 542 places
W←⍳542
K←3>5|7×W
L←2>3|W
A←7|5×W
B←5|3×W
(+/W×K∧L),(+/W×K∨L),(+/W×K⍲L),(+/W×K⍱L),(+/W×~K),(+/W×K=L),+/W×1≠K
(+/W×A<B),(+/W×A≤B),(+/W×A=B),(+/W×A≥B),(+/W×A>B),(+/W×A≠B),+/W×3<A

⍝ 543 places
W←⍳543
K←3>5|7×W
L←2>3|W
A←7|5×W
B←5|3×W
(+/W×K∧L),(+/W×K∨L),(+/W×K⍲L),(+/W×K⍱L),(+/W×~K),(+/W×K=L),+/W×1≠K
(+/W×A<B),(+/W×A≤B),(+/W×A=B),(+/W×A≥B),(+/W×A>B),(+/W×A≠B),+/W×3<A

⍝ 544 places
W←⍳544
K←3>5|7×W
L←2>3|W
A←7|5×W
B←5|3×W
(+/W×K∧L),(+/W×K∨L),(+/W×K⍲L),(+/W×K⍱L),(+/W×~K),(+/W×K=L),+/W×1≠K
(+/W×A<B),(+/W×A≤B),(+/W×A=B),(+/W×A≥B),(+/W×A>B),(+/W×A≠B),+/W×3<A

⍝ 545 places
W←⍳545
K←3>5|7×W
L←2>3|W
A←7|5×W
B←5|3×W
(+/W×K∧L),(+/W×K∨L),(+/W×K⍲L),(+/W×K⍱L),(+/W×~K),(+/W×K=L),+/W×1≠K
(+/W×A<B),(+/W×A≤B),(+/W×A=B),(+/W×A≥B),(+/W×A>B),(+/W×A≠B),+/W×3<A
Z←2|W
Z[545]←2
K∧Z
Z←2|W
Z[530]←2
K∧Z
Z←2|W
Z[529]←2
K∧Z

⍝ 546 places
W←⍳546
K←3>5|7×W
L←2>3|W
A←7|5×W
B←5|3×W
(+/W×K∧L),(+/W×K∨L),(+/W×K⍲L),(+/W×K⍱L),(+/W×~K),(+/W×K=L),+/W×1≠K
(+/W×A<B),(+/W×A≤B),(+/W×A=B),(+/W×A≥B),(+/W×A>B),(+/W×A≠B),+/W×3<A

⍝ 547 places
W←⍳547
K←3>5|7×W
L←2>3|W
A←7|5×W
B←5|3×W
(+/W×K∧L),(+/W×K∨L),(+/W×K⍲L),(+/W×K⍱L),(+/W×~K),(+/W×K=L),+/W×1≠K
(+/W×A<B),(+/W×A≤B),(+/W×A=B),(+/W×A≥B),(+/W×A>B),(+/W×A≠B),+/W×3<A

⍝ 548 places
W←⍳548
K←3>5|7×W
L←2>3|W
A←7|5×W
B←5|3×W
(+/W×K∧L),(+/W×K∨L),(+/W×K⍲L),(+/W×K⍱L),(+/W×~K),(+/W×K=L),+/W×1≠K
(+/W×A<B),(+/W×A≤B),(+/W×A=B),(+/W×A≥B),(+/W×A>B),(+/W×A≠B),+/W×3<A

⍝ 1000 places
W←⍳1000
K←3>5|7×W
L←2>3|W
A←7|5×W
B←5|3×W
(+/W×K∧L),(+/W×K∨L),(+/W×K⍲L),(+/W×K⍱L),(+/W×~K),(+/W×K=L),+/W×1≠K
(+/W×A<B),(+/W×A≤B),(+/W×A=B),(+/W×A≥B),(+/W×A>B),(+/W×A≠B),+/W×3<A

⍝ 4111 places
W←⍳4111
K←3>5|7×W
L←2>3|W
A←7|5×W
B←5|3×W
(+/W×K∧L),(+/W×K∨L),(+/W×K⍲L),(+/W×K⍱L),(+/W×~K),(+/W×K=L),+/W×1≠K
(+/W×A<B),(+/W×A≤B),(+/W×A=B),(+/W×A≥B),(+/W×A>B),(+/W×A≠B),+/W×3<A
Z←2|W
Z[4111]←2
K∧Z
Z←2|W
Z[4096]←2
K∧Z
Z←2|W
Z[4095]←2
K∧Z

⍝ 10000 places
W←⍳10000
K←3>5|7×W
L←2>3|W
A←7|5×W
B←5|3×W
(+/W×K∧L),(+/W×K∨L),(+/W×K⍲L),(+/W×K⍱L),(+/W×~K),(+/W×K=L),+/W×1≠K
(+/W×A<B),(+/W×A≤B),(+/W×A=B),(+/W×A≥B),(+/W×A>B),(+/W×A≠B),+/W×3<A
