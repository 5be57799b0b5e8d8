⍝ The game of life on a board whose edges meet: a glider
WORLD←6 6⍴0
WORLD[1;2]←1
WORLD[2;3]←1
WORLD[3;⍳3]←1
'.#'[1+WORLD]
⍝ the neighbours of each cell: sums of three rows, then of three columns, without the cell
ROWS←WORLD+(1⊖WORLD)+¯1⊖WORLD
NEIGHBOURS←(ROWS+(1⌽ROWS)+¯1⌽ROWS)-WORLD
NEIGHBOURS
⍝ a cell lives where it has three neighbours, or lives and has two
NEXT←(NEIGHBOURS=3)∨WORLD∧NEIGHBOURS=2
'.#'[1+NEXT]
⍝ three more generations, each in one line
W←NEXT
W←(N=3)∨W∧2=N←(R+(1⌽R)+¯1⌽R←W+(1⊖W)+¯1⊖W)-W
W←(N=3)∨W∧2=N←(R+(1⌽R)+¯1⌽R←W+(1⊖W)+¯1⊖W)-W
W←(N=3)∨W∧2=N←(R+(1⌽R)+¯1⌽R←W+(1⊖W)+¯1⊖W)-W
'.#'[1+W]
⍝ after four generations the glider has gone down and right by one
∧/,W=¯1⊖¯1⌽WORLD
