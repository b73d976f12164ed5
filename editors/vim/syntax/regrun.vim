" A regrun session: a description in TOML, the separator, and a script.
if exists('b:current_syntax')
  finish
endif

syntax include @regrunDescription syntax/toml.vim
unlet! b:current_syntax
syntax sync fromstart
syntax case match

syntax match regrunSeparator /^---$/

" what a command is followed by
syntax match regrunNumber /\<\%(0[xX]\x\+\|\d\+\)\>/ contained
syntax match regrunMap /@\h\w*/ contained
syntax match regrunPath /\<\h\w*\%(\.\h\w*\)*\>/ contained
syntax match regrunWhole /\*/ contained
syntax match regrunComment /\%(^\|[ \t]\)\@<=#.*$/ contained
syntax cluster regrunOperands contains=regrunNumber,regrunMap,regrunPath,regrunWhole,regrunComment

" the words of the script, each at the head of its line
syntax region regrunLine start=/^[ \t]*\%(---\)\@!\ze\S/ end=/$/ oneline contains=@regrunOperands,regrunCommand,regrunSequence
syntax match regrunCommand contained /^[ \t]*\zs\%(write\|read\|mirror\|check\|update\|set\|show\|peek\|poke\|reset\|hw\)\ze\%([ \t]\|$\)/
syntax match regrunCommand contained /^[ \t]*\zs\%(field-write\|field-read\|back-write\|back-read\|back-check\)\ze\%([ \t]\|$\)/
syntax match regrunCommand contained /^[ \t]*\zs\%(mem-write\|mem-read\|mem-check\|mem-peek\|mem-poke\|burst-write\|burst-read\)\ze\%([ \t]\|$\)/
syntax match regrunCommand contained /^[ \t]*\zs\%(other-write\|other-read\)\ze\%([ \t]\|$\)/
syntax match regrunSequence contained /^[ \t]*\zsseq[ \t]\+\%(hw-reset\|bit-bash\|access\|shared\|mem-walk\)\ze\%([ \t]\|$\)/

" the description, defined last: of two that begin at one place, here the first line, Vim takes the later
syntax region regrunToml start=/\%^\%(---$\)\@!/ end=/^---$/me=s-1 contains=@regrunDescription keepend

highlight default link regrunSeparator Special
highlight default link regrunCommand Statement
highlight default link regrunSequence Keyword
highlight default link regrunNumber Number
highlight default link regrunMap Type
highlight default link regrunPath Identifier
highlight default link regrunWhole Special
highlight default link regrunComment Comment

let b:current_syntax = 'regrun'
