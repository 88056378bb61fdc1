" Vim syntax file of the language of mitigate.
if exists("b:current_syntax")
  finish
endif

syntax case match

syntax keyword mitigateDeclaration var
syntax keyword mitigateConditional if then else
syntax keyword mitigateRepeat while do
syntax keyword mitigateStatement skip sleep
syntax keyword mitigateBound mitigate

syntax match mitigateName "\<[A-Za-z][A-Za-z0-9_]*\>" contained
syntax match mitigateNumber "\<[0-9]\+\>"
syntax match mitigateOperator "[-+*/%<>]"
syntax match mitigateOperator "[=!<>]="
syntax match mitigateAssignment ":="
syntax match mitigateSign "[;,]"

" Labels: in marks, after the colon of a declaration, in the header, and as the level of a mitigate.
syntax match mitigateLabel ":\s*[A-Za-z][A-Za-z0-9_]*"hs=s+1
syntax region mitigateMarks matchgroup=mitigateMark start="@\s*\[" end="\]" contains=mitigateName,mitigateComment oneline
syntax region mitigateHeader matchgroup=mitigateDeclaration start="\<\(labels\|order\)\>" matchgroup=mitigateSign end=";" contains=mitigateName,mitigateComment,mitigateOperator
syntax match mitigateLevel ",\s*[A-Za-z][A-Za-z0-9_]*\s*)"hs=s+1,he=e-1

syntax match mitigateComment "//.*$" contains=mitigateTodo,@Spell
syntax keyword mitigateTodo TODO FIXME contained

highlight default link mitigateDeclaration Keyword
highlight default link mitigateConditional Conditional
highlight default link mitigateRepeat Repeat
highlight default link mitigateStatement Statement
highlight default link mitigateBound Special
highlight default link mitigateName Type
highlight default link mitigateLabel Type
highlight default link mitigateLevel Type
highlight default link mitigateMark PreProc
highlight default link mitigateNumber Number
highlight default link mitigateOperator Operator
highlight default link mitigateAssignment Operator
highlight default link mitigateSign Delimiter
highlight default link mitigateComment Comment
highlight default link mitigateTodo Todo

let b:current_syntax = "mitigate"
