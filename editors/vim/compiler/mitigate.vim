" The lab as a compiler: `:make` asks `lab why` of the program, jumps to the place of the fault, and lists the chain of reasons.
" g:mitigate_lab names the program where it is not on the path.
if exists('current_compiler')
  finish
endif
let current_compiler = 'mitigate'

execute 'CompilerSet makeprg=' . escape('(echo file: %:p:S; ' . get(g:, 'mitigate_lab', 'lab') . ' why %:p:S)', ' \|"')
" The name of the file; a refusal, a fault of the text with its place and without; a reason; nothing else.
CompilerSet errorformat=%-Pfile:\ %f,%+Erefused\ %\\S%\\+\ at\ %l:%c:%.%#,%+Esyntax:\ %.%#\ at\ %l:%c,%+Esyntax:\ %.%#,%I%l:%c\ %m,%-G%.%#
