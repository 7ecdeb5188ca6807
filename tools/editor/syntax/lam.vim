" Colours for the language of lam. Made by tools/editor/make.py.
if exists("b:current_syntax")
  finish
endif
syn keyword lamDeclaration class fn let
syn keyword lamControl catch else if return region while sync throw
syn keyword lamMaking new spawn
syn keyword lamConstant false null true
syn keyword lamType bool bytes caps dir int pipe file label tag thread
syn match lamBuiltin /\<\%(len\|size\|byte\|slice\|cat\|text\|number\|my_label\|my_caps\|root\|label_of\|copy\|mint\|say\|make_file\|make_dir\|open_file\|open_dir\|remove\|read\|length\|append\|cut\|make_pipe\|send\|send_caps\|receive\|receive_caps\|join\)\>\ze\s*(/
syn match lamFunction /\%(\<fn\s\+\)\@<=\h\w*/
syn match lamClass /\%(\<class\s\+\)\@<=\h\w*/
syn match lamNumber /\<\d\+\>/
syn match lamOperator /==\|!=\|<=\|>=\|&&\|||\|=\|<\|>\|+\|-\|\*\|\/\|%\|!/
syn match lamBadEscape /\\./ contained
syn match lamEscape /\\\%([nt"\\]\|x\x\x\)/ contained
syn region lamText start=/"/ skip=/\\./ end=/"/ oneline contains=lamEscape,lamBadEscape
syn match lamComment /\/\/.*$/ contains=@Spell
hi def link lamDeclaration Keyword
hi def link lamControl Statement
hi def link lamMaking Operator
hi def link lamConstant Constant
hi def link lamType Type
hi def link lamBuiltin Function
hi def link lamFunction Identifier
hi def link lamClass Structure
hi def link lamNumber Number
hi def link lamOperator Operator
hi def link lamBadEscape Error
hi def link lamEscape SpecialChar
hi def link lamText String
hi def link lamComment Comment
let b:current_syntax = "lam"
