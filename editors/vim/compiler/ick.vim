" :make prints what ick-advice finds in the file, and goes to the first place
if exists('current_compiler')
  finish
endif
let current_compiler = 'ick'

CompilerSet makeprg=ick-advice\ --brief\ %:S
CompilerSet errorformat=%f:%l:%c:\ %m,%-G%.%#
