" Settings for sessions of the calculator aplcalc: symbols by a backquote and a key, comments, and no tabs, which are refused.
scriptencoding utf-8
if exists('b:did_ftplugin')
  finish
endif
let b:did_ftplugin = 1

setlocal keymap=aplcalc
setlocal comments=:⍝ commentstring=⍝\ %s
setlocal expandtab
setlocal iskeyword=48-57,65-90,95,97-122
let b:undo_ftplugin = 'setlocal keymap= iminsert< comments< commentstring< expandtab< iskeyword<'
