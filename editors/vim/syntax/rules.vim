" Syntax of scripts of rules (docs/SCRIPT.md). `:set filetype=rules` after `set runtimepath+=FOLDER/editors/vim`.
if exists("b:current_syntax")
  finish
endif

" The bytes of a word are those of a name.
syntax iskeyword 48-57,65-90,97-122,_,46,45

syntax keyword rulesStatement let each in always
syntax keyword rulesKind spread gather lonely ban fence among split root precedence serialize preserve
syntax keyword rulesKind resourceCapacity runningCapacity maxOnline overbook online offline running sleeping ready killed
" A name may have `-` in it, which is no operator there.
syntax match rulesName "[A-Za-z0-9_][A-Za-z0-9_.-]*"
syntax match rulesVariable "\$[A-Za-z0-9_.-]\+"
syntax match rulesNumber "[A-Za-z0-9_.-]\@1<!\d\+[A-Za-z0-9_.-]\@!"
syntax match rulesOperator "[-+&|=:]"
syntax match rulesWrong "[^ -~]"
syntax match rulesComment "#.*" contains=rulesTodo
syntax keyword rulesTodo TODO FIXME contained

highlight default link rulesStatement Statement
highlight default link rulesKind Function
highlight default link rulesVariable Identifier
highlight default link rulesNumber Number
highlight default link rulesOperator Operator
highlight default link rulesWrong Error
highlight default link rulesComment Comment
highlight default link rulesTodo Todo

let b:current_syntax = "rules"
