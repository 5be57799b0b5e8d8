" Colours for sessions of the calculator aplcalc: the lines that you type, and the reports that are written.
scriptencoding utf-8
if exists('b:current_syntax')
  finish
endif

syntax case match
syntax match aplcalcDelimiter /[][();]/
syntax match aplcalcAssignment /←/
syntax match aplcalcFunction /[-+×÷|!⌊⌈~*∧∨⍲⍱<≤=≥>≠⍴,⍳∊↑↓⌽⊖⍉⍋⍒⊥⊤]/
syntax match aplcalcOperator /[/⌿\\⍀.∘]/
syntax match aplcalcNumber /¯\?\d\+/
syntax match aplcalcName /[A-Za-z∆⍙][A-Za-z∆⍙0-9_]*/
syntax match aplcalcMeaningless /["#$%&:?@^{}`]/
syntax match aplcalcText /'\%([^']\|''\)*'/ contains=aplcalcRefused
syntax match aplcalcOpenText /'\%([^']\|''\)*$/ contains=aplcalcRefused
syntax match aplcalcComment /⍝.*/ contains=aplcalcRefused
syntax match aplcalcComment /\%^#!.*/
syntax match aplcalcCommand /^ *)\%(ORIGIN\|WIDTH\|CLEAR\|OFF\)\>/
syntax match aplcalcHeading /^\%(SYNTAX\|VALUE\|INDEX\|RANK\|LENGTH\|DOMAIN\|LIMIT\|CHARACTER\) ERROR$/
syntax match aplcalcHeading /^\%(WS FULL\|INCORRECT COMMAND\)$/
syntax match aplcalcCaret /^ \{6,}∧$/
syntax match aplcalcRefused /[^ -~¯×÷←↑↓∆∊∘∧∨≠≤≥⊖⊤⊥⌈⌊⌽⌿⍀⍉⍋⍒⍙⍝⍱⍲⍳⍴]/

highlight default link aplcalcDelimiter Delimiter
highlight default link aplcalcAssignment Statement
highlight default link aplcalcFunction Function
highlight default link aplcalcOperator Special
highlight default link aplcalcNumber Number
highlight default link aplcalcName Identifier
highlight default link aplcalcText String
highlight default link aplcalcComment Comment
highlight default link aplcalcCommand PreProc
highlight default link aplcalcHeading ErrorMsg
highlight default link aplcalcCaret ErrorMsg
highlight default link aplcalcMeaningless Error
highlight default link aplcalcOpenText Error
highlight default link aplcalcRefused Error

let b:current_syntax = 'aplcalc'
