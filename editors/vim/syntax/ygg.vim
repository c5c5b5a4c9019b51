" Syntax of layer files of ygg. Names are any other lower-case words.
if exists("b:current_syntax")
  finish
endif

syntax keyword yggFile yggdrasil disk layer
syntax keyword yggKind sync async
syntax keyword yggDeclaration def state memory op tick
syntax keyword yggBlock start format spec on crash impl recover
syntax keyword yggClaim relate always settled maybe
syntax keyword yggType word row table of
syntax keyword yggControl if else for below return
syntax keyword yggStatement let call choose
syntax keyword yggFunction pick resize fill all any
syntax keyword yggLow low

syntax match yggName /\<[a-z][a-z0-9_]*\>/
syntax match yggDeclared /\%(\<\%(layer\|def\|op\|tick\)\s\+\)\@<=[a-z][a-z0-9_]*\>/
syntax match yggCalled /\%(\<call\s\+\)\@<=[a-z][a-z0-9_]*\>/
syntax match yggNumber /\<\d\+\>/
syntax match yggOperator /=>\|->\|<<\|>>\|<=\|>=\|==\|!=\|[=<>+*&|^~-]/
syntax match yggPunctuation /[{}()\[\];:,.]/
syntax match yggComment /#.*$/ contains=@Spell

highlight default link yggFile Keyword
highlight default link yggKind StorageClass
highlight default link yggDeclaration Keyword
highlight default link yggBlock Label
highlight default link yggClaim PreProc
highlight default link yggType Type
highlight default link yggControl Conditional
highlight default link yggStatement Statement
highlight default link yggFunction Function
highlight default link yggLow Special
highlight default link yggName Identifier
highlight default link yggDeclared Function
highlight default link yggCalled Function
highlight default link yggNumber Number
highlight default link yggOperator Operator
highlight default link yggPunctuation Delimiter
highlight default link yggComment Comment

let b:current_syntax = "ygg"
