" Vim compiler file: in the buffer of a declaration, `:compiler workbench` and then `:make` goes to its first fault.
if exists('current_compiler')
  finish
endif
let current_compiler = 'workbench'

CompilerSet makeprg=workbench\ check\ %:S
CompilerSet errorformat=declaration\ line\ %l:\ %m,%-G%.%#
