" The symbols of aplcalc in Vim's insert mode: a backquote and a key. The key is that of the system's layout 'apl', on a keyboard
" of the United States.
" The filetype aplcalc switches it on; elsewhere say :set keymap=aplcalc. Two backquotes are one.
let b:keymap_name = "apl"
loadkeymap
`2 ¯ " high minus
`- × " times
`= ÷ " divide
`4 ≤ " less or equal
`6 ≥ " greater or equal
`8 ≠ " not equal
`0 ∧ " and
`9 ∨ " or
`) ⍲ " nand
`( ⍱ " nor
`s ⌈ " greater
`d ⌊ " lesser
`[ ← " assignment
`r ⍴ " shape, reshape
`i ⍳ " count, index of
`e ∊ " membership
`y ↑ " take
`u ↓ " drop
`% ⌽ " reverse, rotate
`& ⊖ " the same along the first axis
`^ ⍉ " transpose
`/ ⌿ " replicate, reduction, along the first axis
`. ⍀ " expand, scan, along the first axis
`$ ⍋ " grade up
`# ⍒ " grade down
`b ⊥ " decode
`n ⊤ " encode
`j ∘ " outer product, before a dot
`, ⍝ " comment
`h ∆ " a letter
`> ⍙ " a letter
`` ` " backquote
