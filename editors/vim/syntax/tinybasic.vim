" Tiny BASIC, as tbc reads it: words may be written together, in either case.
if exists('b:current_syntax')
  finish
endif
syntax case ignore

syntax match tinybasicOperator /[-+*\/=<>(),;]/
syntax match tinybasicVariable /[A-Z]/
syntax match tinybasicNumber /\d\+/
syntax match tinybasicLineNumber /^\s*\d\+/
syntax match tinybasicFunction /RND/
syntax match tinybasicStatement /LET\|PRINT\|PR\|INPUT\|GO\s*TO\|GO\s*SUB\|RETURN\|END/
syntax match tinybasicConditional /IF\|THEN/
syntax match tinybasicText /"[^"]*"\?/
syntax match tinybasicRemark /REM.*$/

highlight default link tinybasicLineNumber Label
highlight default link tinybasicNumber Number
highlight default link tinybasicVariable Identifier
highlight default link tinybasicFunction Function
highlight default link tinybasicStatement Statement
highlight default link tinybasicConditional Conditional
highlight default link tinybasicText String
highlight default link tinybasicRemark Comment
highlight default link tinybasicOperator Operator

let b:current_syntax = 'tinybasic'
