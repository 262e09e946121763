" Vim syntax file
" Language: S-Net, as the checker and runtime snet reads it
" Copy editors/vim/ into ~/.vim, or add it to 'runtimepath'.

if exists('b:current_syntax')
  finish
endif

syntax iskeyword @,48-57,_,192-255

" What is spelled first in this list yields to what is spelled later, where both begin at one place.
syntax match snetName /\%([A-Za-z_]\|[^\x00-\x7f]\)\%([A-Za-z0-9_]\|[^\x00-\x7f]\)*/
syntax keyword snetKeyword box net connect type typesig if then else let in out fun
syntax match snetNumber /\<[0-9]\+/
syntax match snetSymbol /[(){}\[\],;:=<>+\-*\/%|!?@]\|&&\|\.\./
syntax match snetTag /<#\?\%([A-Za-z_]\|[^\x00-\x7f]\)\%([A-Za-z0-9_]\|[^\x00-\x7f]\)*>/
syntax match snetEscape /\\["\\]/ contained
syntax region snetText start=/"/ skip=/\\["\\]/ end=/"/ oneline contains=snetEscape
syntax match snetComment /\/\/.*/
syntax region snetComment start=/\/\*/ end=/\*\//

highlight default link snetName Identifier
highlight default link snetKeyword Keyword
highlight default link snetNumber Number
highlight default link snetSymbol Operator
highlight default link snetTag Type
highlight default link snetEscape SpecialChar
highlight default link snetText String
highlight default link snetComment Comment

let b:current_syntax = 'snet'
