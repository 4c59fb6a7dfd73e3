" Vim: `:make` checks the grammar, and the cursor goes to its fault.

if exists('current_compiler')
  finish
endif
let current_compiler = 'slif'

" The place is the last thing in a line about a grammar, and the first in one about an input. A line without a place is told as it stands.
CompilerSet makeprg=slif\ check\ --grammar\ %:S
CompilerSet errorformat=slif:\ input\ stopped\ at\ line\ %l\ column\ %c;\ %m,slif:\ %m\ at\ line\ %l\ column\ %c,slif:\ %m,%-G%.%#
