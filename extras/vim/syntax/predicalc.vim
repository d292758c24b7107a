" Syntax of PrediCalc's sheets, commands and certificates.
" Lay the folders of extras/vim into ~/.vim.
if exists('b:current_syntax')
  finish
endif

syntax case match
setlocal commentstring=;\ %s

" Of two that match at one place the later one counts.
syntax match predicalcName    "[^[:blank:]0-9=!<>&|()\[\],:.+;-][^[:blank:]=!<>&|()\[\],:.+;-]*" contained
syntax match predicalcNumber  "\<\d\+\>"
syntax match predicalcSign    "<->\|->\|!=\|<=\|>=\|\.\.\|[=<>!&|+~-]"
syntax keyword predicalcQuantifier forall exists atmost atleast
syntax match predicalcPath    "@[^[:blank:]]\+"
syntax match predicalcClaim   "\<\%(\%(inconsistent\|repairs\)\ze\s*$\|\%(not\|against\)\ze\s\+[^[:blank:]=!(]\)" contained nextgroup=predicalcName skipwhite

" A line begins with its word; a comment is a line of its own.
syntax match predicalcComment "^\s*;.*$"
syntax match predicalcWord    "^\s*\%(sheet\|sort\|table\|row\|cell\|rule\|enter\|also\|begin\|clear\|drop\|budget\)\>" nextgroup=predicalcName skipwhite
syntax match predicalcWord    "^\s*\%(show\|grid\|json\|dump\|ask\|why\|whynot\|repairs\|prove\s\+repairs\)\>" nextgroup=predicalcName skipwhite
syntax match predicalcWord    "^\s*\%(certificate\|claim\|set\|use\|value\|end\)\>" nextgroup=predicalcClaim,predicalcName skipwhite

" A line of a derivation begins with its number.
syntax match predicalcStep    "^\s*\d\+\s\+\%(some\|one\|rule\|node\|atom\|block\|step\)\>"

highlight default link predicalcComment    Comment
highlight default link predicalcWord       Keyword
highlight default link predicalcClaim      Keyword
highlight default link predicalcStep       Statement
highlight default link predicalcPath       Special
highlight default link predicalcName       Identifier
highlight default link predicalcQuantifier Conditional
highlight default link predicalcNumber     Number
highlight default link predicalcSign       Operator

let b:current_syntax = 'predicalc'
