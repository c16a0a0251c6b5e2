" Vim syntax file
" Language: declarations and transcripts of workbench(1), as workbench(5) describes them
" Install: copy the folders beside syntax/ into ~/.vim

if exists('b:current_syntax')
  finish
endif

" A declaration is a text whose first line that is neither blank nor a comment is the header. Without such a line the name
" of the file decides.
function! s:IsDeclaration() abort
  for number in range(1, line('$'))
    let first = getline(number)
    if first !~# '^\s*\%(#.*\)\?$'
      return first =~# '^\s*workbench\>'
    endif
  endfor
  return expand('%:t') =~# 'declaration'
endfunction

syn case match
syn match workbenchComment /^\s*#.*$/ contains=@Spell

" Words that both texts have.
syn keyword workbenchProcedure contained adder subtractor multiplier squarer divider at_most equal inverter
syn keyword workbenchProcedure contained conjoiner disjoiner switch copy point fixed sign sum product conditional

if s:IsDeclaration()
  syn match workbenchHeader /^\s*workbench\s\+[12]\s*$/

  " Each word takes the rest of its line, so it is a word of a declaration only where it comes first.
  syn keyword workbenchDeclares user set nextgroup=workbenchRest skipwhite
  syn keyword workbenchDeclares premise nextgroup=workbenchPremise skipwhite
  syn keyword workbenchDeclares cell nextgroup=workbenchName skipwhite
  syn match workbenchRest contained /.*/
  syn match workbenchPremise contained /\S\+/ nextgroup=workbenchOf skipwhite
  syn match workbenchOf contained /of\>/ nextgroup=workbenchRest skipwhite

  " Names, each with its kind behind it.
  syn match workbenchName contained /\S\+/ nextgroup=workbenchKind,workbenchSet skipwhite
  syn match workbenchSet contained /\S\+/ nextgroup=workbenchName skipwhite
  syn keyword workbenchKind contained interval exact bool sign nextgroup=workbenchName skipwhite

  " Inside a compound each first word but `local` and `end` begins a call.
  syn region workbenchCompound transparent keepend fold start=/^\s*compound\>/ end=/^\s*end\>/
        \ contains=workbenchComment,workbenchCall,workbenchDeclaresInside
  syn match workbenchCall contained /^\s*[^# \t]\S*/ contains=workbenchProcedure nextgroup=workbenchRest skipwhite
  syn match workbenchDeclaresInside contained /^\s*compound\>/ nextgroup=workbenchDefined skipwhite
  syn match workbenchDeclaresInside contained /^\s*local\>/ nextgroup=workbenchName skipwhite
  syn match workbenchDeclaresInside contained /^\s*end\>/
  syn match workbenchDefined contained /\S\+/ nextgroup=workbenchName skipwhite
  syn sync fromstart
else
  syn match workbenchUser /^\s*[^# \t]\S*/ nextgroup=workbenchCommand skipwhite
  syn keyword workbenchCommand contained tell nextgroup=workbenchTold skipwhite
  syn keyword workbenchCommand contained attach nextgroup=workbenchCallable skipwhite
  syn keyword workbenchCommand contained believe doubt beliefs ask why conflicts choose nextgroup=workbenchRest skipwhite
  syn match workbenchRest contained /.*/ contains=workbenchOr
  syn match workbenchOr contained /|/
  syn match workbenchTold contained /\S\+/ nextgroup=workbenchInformation skipwhite
  syn match workbenchInformation contained /\S\+/ contains=workbenchNumber,workbenchMembers,workbenchAllOrNone
        \ nextgroup=workbenchUnder skipwhite
  syn match workbenchNumber contained /-\?\<\d\+\>\%(\.\.-\?\d\+\>\)\?/
  syn match workbenchMembers contained /{[a-z0-9_,]*}/
  syn keyword workbenchAllOrNone contained nothing contradiction
  syn match workbenchCallable contained /\S\+/ contains=workbenchProcedure nextgroup=workbenchCells skipwhite
  syn match workbenchCells contained /.*/ contains=workbenchUnder
  syn match workbenchUnder contained /\%(\s\|^\)\@1<=under\>/ nextgroup=workbenchRest skipwhite
endif

hi def link workbenchComment Comment
hi def link workbenchHeader PreProc
hi def link workbenchDeclares Statement
hi def link workbenchDeclaresInside Statement
hi def link workbenchOf Statement
hi def link workbenchKind Type
hi def link workbenchSet Type
hi def link workbenchProcedure Function
hi def link workbenchDefined Identifier
hi def link workbenchUser Identifier
hi def link workbenchCommand Statement
hi def link workbenchUnder Statement
hi def link workbenchOr Operator
hi def link workbenchNumber Number
hi def link workbenchMembers Constant
hi def link workbenchAllOrNone Constant

let b:current_syntax = 'workbench'
