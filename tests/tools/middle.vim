" Goes to two lines of a comment in the middle of the file, the last one first, and writes their groups into FILE.groups.
" The environment variable SYNTAX names the syntax file.
syntax on
syntax clear
unlet! b:current_syntax
execute 'source ' . $SYNTAX
let groups = []
for row in [600, 399]
  call cursor(row, 5)
  normal! zt
  redraw
  call add(groups, synIDattr(synID(row, 5, 1), 'name'))
endfor
call writefile(groups, expand('%') . '.groups')
qall!
