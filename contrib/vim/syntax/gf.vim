" Sources of the first-order profile of Grammatical Framework that gfs reads.
if exists('b:current_syntax')
  finish
endif

syntax match gfName "[[:alpha:]_\x80-\uffff][[:alnum:]_'\x80-\uffff]*"
syntax keyword gfModule abstract concrete incomplete instance interface resource open of with in
syntax keyword gfJudgement cat flags fun lin lincat lindef linref oper param
syntax keyword gfTerm case let overload table variants where
syntax keyword gfType Str Type PType Ints Int String Predef
syntax keyword gfLeftOut data def pre strs printname transfer union reuse Float

syntax match gfSymbol "[{}()\[\]<>;:,.=|@*+!?\\-]"
syntax match gfNumber "\<\d\+\>"
syntax match gfEscape contained "\\[\"\\nt]"
syntax match gfBadEscape contained "\\[^\"\\nt]"
syntax region gfString start=+"+ end=+"+ oneline contains=gfEscape,gfBadEscape
syntax match gfComment "--.*$"
syntax region gfComment start="{-" end="-}"

highlight default link gfModule Statement
highlight default link gfJudgement Keyword
highlight default link gfTerm Conditional
highlight default link gfType Type
highlight default link gfLeftOut Error
highlight default link gfSymbol Operator
highlight default link gfNumber Number
highlight default link gfString String
highlight default link gfEscape SpecialChar
highlight default link gfBadEscape Error
highlight default link gfComment Comment

let b:current_syntax = 'gf'
