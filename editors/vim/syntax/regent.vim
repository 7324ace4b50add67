" Syntax colouring of the integer profile of Regent.

if exists("b:current_syntax")
  finish
endif

syntax case match

syntax match regentNumber "\<\d\+\(LL\)\?\>"
syntax keyword regentConstant true false null
syntax keyword regentControl if then else elseif for while do in end return where
syntax keyword regentInclude import
syntax keyword regentOperator and or not min max
syntax keyword regentDeclaration task fspace var local
syntax keyword regentPrivilege reads writes reduces
syntax keyword regentModifier disjoint aliased wild
syntax keyword regentType bool int int32 int64 int1d ptr ispace region partition
syntax keyword regentFunction fill image preimage equal isnull dynamic_cast
syntax keyword regentModule regentlib
syntax keyword regentDemand __demand __index_launch
syntax match regentTask "\(\<task\s\+\)\@<=\h\w*"
syntax match regentSpace "\(\<fspace\s\+\)\@<=\h\w*"

syntax match regentEscape contained "\\[nt\"\\]"
syntax match regentHole contained "%\(%\|lld\|ld\|d\)"
syntax region regentString start=+"+ skip=+\\.+ end=+"\|$+ contains=regentEscape,regentHole

syntax match regentComment "--.*$" contains=regentTodo
syntax region regentComment start="--\[\[" end="\]\]" contains=regentTodo
syntax keyword regentTodo contained TODO FIXME

highlight default link regentNumber Number
highlight default link regentConstant Constant
highlight default link regentControl Statement
highlight default link regentInclude Include
highlight default link regentOperator Operator
highlight default link regentDeclaration Keyword
highlight default link regentPrivilege StorageClass
highlight default link regentModifier StorageClass
highlight default link regentType Type
highlight default link regentFunction Function
highlight default link regentModule Include
highlight default link regentDemand PreProc
highlight default link regentTask Function
highlight default link regentSpace Structure
highlight default link regentEscape SpecialChar
highlight default link regentHole SpecialChar
highlight default link regentString String
highlight default link regentComment Comment
highlight default link regentTodo Todo

let b:current_syntax = "regent"
