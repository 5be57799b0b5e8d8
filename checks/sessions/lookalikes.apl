⍝ Characters that look like symbols of the language, or are those of other APLs
3∈⍳5
3ε⍳5
5−3
5–3
‾3
ˉ3
3∣7
3│7
2⋆3
2∗3
2✕3
+∕⍳3
+∖⍳3
∼1 0
2 2ρ5
ι5
(⍳3)°.×⍳3
(⍳3)◦.×⍳3
φ⍳3
θ⍳3
2⟂1 0 1
Δ←3
’A’
“A“
⍴⍬
1⋄2
1 2
1	2
⍝ also in a comment: ○
3∊⍳5
