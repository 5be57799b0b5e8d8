⍝ Sums of products by the number of lines, items and columns, which go four columns at a time. The answers are Python's.

⍝ 8 lines, 1 items, 2 columns
A←8 1⍴(101|37×⍳8)-50
B←1 2⍴(89|53×⍳2)-44
R←A+.×B
+/R
+⌿R
+/(⍳⍴,R)×,R

⍝ 8 lines, 2 items, 3 columns
A←8 2⍴(101|37×⍳16)-50
B←2 3⍴(89|53×⍳6)-44
R←A+.×B
+/R
+⌿R
+/(⍳⍴,R)×,R

⍝ 8 lines, 3 items, 4 columns
A←8 3⍴(101|37×⍳24)-50
B←3 4⍴(89|53×⍳12)-44
R←A+.×B
+/R
+⌿R
+/(⍳⍴,R)×,R

⍝ 9 lines, 2 items, 5 columns
A←9 2⍴(101|37×⍳18)-50
B←2 5⍴(89|53×⍳10)-44
R←A+.×B
+/R
+⌿R
+/(⍳⍴,R)×,R

⍝ 8 lines, 5 items, 6 columns
A←8 5⍴(101|37×⍳40)-50
B←5 6⍴(89|53×⍳30)-44
R←A+.×B
+/R
+⌿R
+/(⍳⍴,R)×,R

⍝ 11 lines, 4 items, 7 columns
A←11 4⍴(101|37×⍳44)-50
B←4 7⍴(89|53×⍳28)-44
R←A+.×B
+/R
+⌿R
+/(⍳⍴,R)×,R

⍝ 8 lines, 7 items, 8 columns
A←8 7⍴(101|37×⍳56)-50
B←7 8⍴(89|53×⍳56)-44
R←A+.×B
+/R
+⌿R
+/(⍳⍴,R)×,R

⍝ 13 lines, 3 items, 9 columns
A←13 3⍴(101|37×⍳39)-50
B←3 9⍴(89|53×⍳27)-44
R←A+.×B
+/R
+⌿R
+/(⍳⍴,R)×,R

⍝ 8 lines, 9 items, 10 columns
A←8 9⍴(101|37×⍳72)-50
B←9 10⍴(89|53×⍳90)-44
R←A+.×B
+/R
+⌿R
+/(⍳⍴,R)×,R

⍝ 8 lines, 24 items, 11 columns
A←8 24⍴(101|37×⍳192)-50
B←24 11⍴(89|53×⍳264)-44
R←A+.×B
+/R
+⌿R
+/(⍳⍴,R)×,R

⍝ 9 lines, 25 items, 12 columns
A←9 25⍴(101|37×⍳225)-50
B←25 12⍴(89|53×⍳300)-44
R←A+.×B
+/R
+⌿R
+/(⍳⍴,R)×,R

⍝ 17 lines, 2 items, 13 columns
A←17 2⍴(101|37×⍳34)-50
B←2 13⍴(89|53×⍳26)-44
R←A+.×B
+/R
+⌿R
+/(⍳⍴,R)×,R

⍝ 8 lines, 1 items, 16 columns
A←8 1⍴(101|37×⍳8)-50
B←1 16⍴(89|53×⍳16)-44
R←A+.×B
+/R
+⌿R
+/(⍳⍴,R)×,R

⍝ 33 lines, 5 items, 17 columns
A←33 5⍴(101|37×⍳165)-50
B←5 17⍴(89|53×⍳85)-44
R←A+.×B
+⌿R
+/(⍳⍴,R)×,R

⍝ 8 lines, 3 items, 64 columns
A←8 3⍴(101|37×⍳24)-50
B←3 64⍴(89|53×⍳192)-44
R←A+.×B
+/R
+/(⍳⍴,R)×,R

⍝ 4 columns, with 2147483647 at the end
A←8 2⍴1 2
A[8;]←2147483647
B←⍉4 2⍴3 ¯3
B[;4]←2147483647
R←A+.×B
+/R[⍳7;]
R[8;]
R[;4]

⍝ 4 columns, with ¯2147483647 at the end
A←8 2⍴1 2
A[8;]←¯2147483647
B←⍉4 2⍴3 ¯3
B[;4]←¯2147483647
R←A+.×B
+/R[⍳7;]
R[8;]
R[;4]

⍝ 4 columns, with 2147483648 at the end
A←8 2⍴1 2
A[8;]←2147483648
B←⍉4 2⍴3 ¯3
B[;4]←2147483648
A+.×B

⍝ 4 columns, with ¯2147483648 at the end
A←8 2⍴1 2
A[8;]←¯2147483648
B←⍉4 2⍴3 ¯3
B[;4]←¯2147483648
A+.×B

⍝ 5 columns, with 2147483647 at the end
A←8 2⍴1 2
A[8;]←2147483647
B←⍉5 2⍴3 ¯3
B[;5]←2147483647
R←A+.×B
+/R[⍳7;]
R[8;]
R[;5]

⍝ 5 columns, with ¯2147483647 at the end
A←8 2⍴1 2
A[8;]←¯2147483647
B←⍉5 2⍴3 ¯3
B[;5]←¯2147483647
R←A+.×B
+/R[⍳7;]
R[8;]
R[;5]

⍝ 5 columns, with 2147483648 at the end
A←8 2⍴1 2
A[8;]←2147483648
B←⍉5 2⍴3 ¯3
B[;5]←2147483648
A+.×B

⍝ 5 columns, with ¯2147483648 at the end
A←8 2⍴1 2
A[8;]←¯2147483648
B←⍉5 2⍴3 ¯3
B[;5]←¯2147483648
A+.×B

⍝ 6 columns, with 2147483647 at the end
A←8 2⍴1 2
A[8;]←2147483647
B←⍉6 2⍴3 ¯3
B[;6]←2147483647
R←A+.×B
+/R[⍳7;]
R[8;]
R[;6]

⍝ 6 columns, with ¯2147483647 at the end
A←8 2⍴1 2
A[8;]←¯2147483647
B←⍉6 2⍴3 ¯3
B[;6]←¯2147483647
R←A+.×B
+/R[⍳7;]
R[8;]
R[;6]

⍝ 6 columns, with 2147483648 at the end
A←8 2⍴1 2
A[8;]←2147483648
B←⍉6 2⍴3 ¯3
B[;6]←2147483648
A+.×B

⍝ 6 columns, with ¯2147483648 at the end
A←8 2⍴1 2
A[8;]←¯2147483648
B←⍉6 2⍴3 ¯3
B[;6]←¯2147483648
A+.×B

⍝ 7 columns, with 2147483647 at the end
A←8 2⍴1 2
A[8;]←2147483647
B←⍉7 2⍴3 ¯3
B[;7]←2147483647
R←A+.×B
+/R[⍳7;]
R[8;]
R[;7]

⍝ 7 columns, with ¯2147483647 at the end
A←8 2⍴1 2
A[8;]←¯2147483647
B←⍉7 2⍴3 ¯3
B[;7]←¯2147483647
R←A+.×B
+/R[⍳7;]
R[8;]
R[;7]

⍝ 7 columns, with 2147483648 at the end
A←8 2⍴1 2
A[8;]←2147483648
B←⍉7 2⍴3 ¯3
B[;7]←2147483648
A+.×B

⍝ 7 columns, with ¯2147483648 at the end
A←8 2⍴1 2
A[8;]←¯2147483648
B←⍉7 2⍴3 ¯3
B[;7]←¯2147483648
A+.×B

⍝ 9 columns, with 2147483647 at the end
A←8 2⍴1 2
A[8;]←2147483647
B←⍉9 2⍴3 ¯3
B[;9]←2147483647
R←A+.×B
+/R[⍳7;]
R[8;]
R[;9]

⍝ 9 columns, with ¯2147483647 at the end
A←8 2⍴1 2
A[8;]←¯2147483647
B←⍉9 2⍴3 ¯3
B[;9]←¯2147483647
R←A+.×B
+/R[⍳7;]
R[8;]
R[;9]

⍝ 9 columns, with 2147483648 at the end
A←8 2⍴1 2
A[8;]←2147483648
B←⍉9 2⍴3 ¯3
B[;9]←2147483648
A+.×B

⍝ 9 columns, with ¯2147483648 at the end
A←8 2⍴1 2
A[8;]←¯2147483648
B←⍉9 2⍴3 ¯3
B[;9]←¯2147483648
A+.×B
