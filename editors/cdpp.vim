" Colours of Cell-DEVS models, files .ma, for vim.
" Copy it to ~/.vim/syntax/cdpp.vim, and write this line into ~/.vim/ftdetect/cdpp.vim:
"     au BufRead,BufNewFile *.ma setfiletype cdpp
" A key that isn't coloured is none that the simulator knows, and so has no effect. docs/MODELS.md and docs/RULES.md list them all.
if exists("b:current_syntax")
  finish
endif

syn case ignore
syn sync minlines=50

syn match cdppNumber /\<\d\+\(\.\d*\)\?\>/
syn match cdppNumber /\.\d\+\>/
syn match cdppTime /\<\d\+:\d\+:\d\+:\d\+\>/
syn match cdppUndefined /?/
syn match cdppMark /:=\|!=\|<=\|>=\|[-+*\/=<>]/
syn match cdppCell /([-+0-9 \t]\+,[-+0-9 \t]\+\(,[-+0-9 \t]\+\)\?)/
syn match cdppVariable /\$[a-z][a-z0-9_]*/
syn match cdppPort /\~[a-z][a-z0-9_]*/

syn keyword cdppTruth t f
syn keyword cdppOperator and or xor not imp eqv
syn keyword cdppFunction if ifu abs sign sqrt trunc fractional round min max remainder
syn keyword cdppFunction even odd isint isundefined statecount cellpos portvalue
syn keyword cdppSeen time truecount falsecount undefcount thisport
syn keyword cdppRefused random randint randsign uniform normal exponential poisson binomial beta gamma chi

" Keys stand at the head of a line, before its first colon.
syn match cdppKey /^\s*\(type\|components\|in\|out\|link\)\s*\ze:/
syn match cdppKey /^\s*\(dim\|height\|width\|border\|neighbors\|delay\|defaultdelaytime\)\s*\ze:/
syn match cdppKey /^\s*\(localtransition\|zone\|portintransition\|rule\)\s*\ze:/
syn match cdppKey /^\s*initial\(value\|rowvalue\|row\|mapvalue\|cellsvalue\)\?\s*\ze:/
syn match cdppKey /^\s*\(statevariables\|statevalues\|neighborports\|portvalues\)\s*\ze:/
syn match cdppKey /^\s*\(preparation\|start\|period\|value\|step\|count\|states\|hold\|take\)\s*\ze:/

syn match cdppSection /^\s*\[[^\]]*\]/
syn match cdppComment /%.*/

hi def link cdppNumber Number
hi def link cdppTime Number
hi def link cdppUndefined Constant
hi def link cdppMark Operator
hi def link cdppCell Special
hi def link cdppVariable Identifier
hi def link cdppPort Type
hi def link cdppTruth Boolean
hi def link cdppOperator Operator
hi def link cdppFunction Function
hi def link cdppSeen Function
hi def link cdppRefused Error
hi def link cdppKey Keyword
hi def link cdppSection Title
hi def link cdppComment Comment

let b:current_syntax = "cdpp"
