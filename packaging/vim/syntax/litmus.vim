" Vim syntax file: litmus tests of perple, see perple-litmus(5). What the format does not take is marked as an error.
if exists('b:current_syntax')
  finish
endif

syntax case match
syntax match litmusFirst /\%1l^\s*X86\>/ nextgroup=litmusName skipwhite
syntax match litmusName /\S\+/ contained
syntax match litmusWrongFirst /\%1l^\%(\s*X86\>\)\@!.*$/
syntax region litmusComment start=/(\*/ end=/\*)/
syntax match litmusQuoted /"[^"]*"/
syntax match litmusKey /^\a[^="{]*\ze=/
syntax match litmusThread /\<P\d\+\>/
syntax match litmusThread /\<\d\+\ze:/
syntax match litmusNumber /\$\=\<\d\+\>\ze\s*:\@!/
syntax match litmusWrongNumber /\$\=\<0[xX]\x\+\>/
syntax match litmusInstruction /\c\<\%(mov\|xchg\|mfence\)\>/
syntax match litmusRegister /\<\%(E[ABCD]X\|E[SD]I\|e[abcd]x\|e[sd]i\)\>/
syntax match litmusLocation /\[\s*\h\w*\s*\]/
syntax match litmusJoined /\/\\\|\\\//
syntax match litmusBar /[|;]/
syntax match litmusQuantifier /\~\=\s*\<exists\>/
syntax keyword litmusSection locations
syntax keyword litmusRefused forall filter

highlight default link litmusFirst PreProc
highlight default link litmusName Title
highlight default link litmusComment Comment
highlight default link litmusQuoted String
highlight default link litmusKey PreProc
highlight default link litmusThread Label
highlight default link litmusNumber Number
highlight default link litmusInstruction Statement
highlight default link litmusRegister Identifier
highlight default link litmusLocation Type
highlight default link litmusJoined Operator
highlight default link litmusBar Delimiter
highlight default link litmusQuantifier Conditional
highlight default link litmusSection Keyword
highlight default link litmusRefused Error
highlight default link litmusWrongFirst Error
highlight default link litmusWrongNumber Error

let b:current_syntax = 'litmus'
