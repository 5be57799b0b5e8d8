'AB'
)CLEAR
''
)CLEAR
''''
)CLEAR
A←'AB'⍝ N
)CLEAR
'A'+1
)CLEAR
'''
)CLEAR
'A''
)CLEAR
1,'AB ⍝
)CLEAR
'⍝'
)CLEAR
'A' 'B'
)CLEAR
''''''
