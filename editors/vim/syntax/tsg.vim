" Vim syntax file: TSG programs (typed S-Graph) and job files of Raugvite. TSG has no comments.
if exists('b:current_syntax')
  finish
endif

syntax case match

" A token that is no bracket is a run of other bytes than brackets and blanks. Of those that match at one place the last one here counts.
syntax match tsgError /[^][() \t]\+/
syntax match tsgName /[A-Za-z0-9]\{1,16}\%([^][() \t]\)\@!/
syntax match tsgNumeral /\%(0\|[1-9][0-9]\{0,6}\)\%([^][() \t]\)\@!/
syntax match tsgSymbol /'[A-Za-z0-9]\{1,16}\%([^][() \t]\)\@!/
syntax match tsgValue /e\.[A-Za-z0-9]\{1,16}\%([^][() \t]\)\@!/
syntax match tsgAtom /a\.[A-Za-z0-9]\{1,16}\%([^][() \t]\)\@!/
syntax match tsgJobValue /?e[1-9][0-9]\{0,2}\%([^][() \t]\)\@!/
syntax match tsgJobAtom /?a[1-9][0-9]\{0,2}\%([^][() \t]\)\@!/
syntax match tsgBracket /[][()]/

" Keywords stand behind an opening bracket; elsewhere `call` or `in` is a function's name.
syntax match tsgDeclaration /\%(([ \t]*\)\@<=\%(define\|job\|in\|out\|neq\|steps\|walk\|table\)\%([^][() \t]\)\@!/
syntax match tsgControl /\%(([ \t]*\)\@<=\%(call\|if\)\%([^][() \t]\)\@!/
syntax match tsgOperator /\%(([ \t]*\)\@<=\%(cons?\=\|eqa?\)\%([^][() \t]\)\@!/

highlight default link tsgError Error
highlight default link tsgName Function
highlight default link tsgNumeral Number
highlight default link tsgSymbol String
highlight default link tsgValue Identifier
highlight default link tsgAtom Type
highlight default link tsgJobValue Identifier
highlight default link tsgJobAtom Type
highlight default link tsgBracket Delimiter
highlight default link tsgDeclaration Statement
highlight default link tsgControl Conditional
highlight default link tsgOperator Operator

let b:current_syntax = 'tsg'
