" Vim syntax of the Pure Esterel that estserve runs.
if exists("b:current_syntax")
  finish
endif

syntax case match
syntax iskeyword @,48-57,_

" Declarations and modules
syntax keyword esterelStructure module input output inputoutput relation signal run
" Statements
syntax keyword esterelStatement nothing pause halt emit sustain exit await
syntax keyword esterelConditional present then else when immediate
syntax keyword esterelRepeat loop each every
syntax keyword esterelPreempt suspend abort weak trap
syntax keyword esterelKeyword end do in
" What joins signals in a test
syntax keyword esterelOperator and or not
syntax keyword esterelConstant tick

syntax match esterelSymbol "||\|=>\|#"
syntax match esterelNumber "\<[0-9]\+\>"
syntax match esterelComment "%.*$" contains=esterelTodo
syntax region esterelComment start="%{" end="}%" contains=esterelTodo
syntax keyword esterelTodo contained TODO FIXME XXX

highlight default link esterelStructure Structure
highlight default link esterelStatement Statement
highlight default link esterelConditional Conditional
highlight default link esterelRepeat Repeat
highlight default link esterelPreempt Exception
highlight default link esterelKeyword Keyword
highlight default link esterelOperator Operator
highlight default link esterelConstant Constant
highlight default link esterelSymbol Operator
highlight default link esterelNumber Error
highlight default link esterelComment Comment
highlight default link esterelTodo Todo

let b:current_syntax = "esterel"
