" Writes the syntax group of each byte of each file into FILE.groups: a line for each line, names with spaces between.
" The environment variable SYNTAX names the syntax file.
syntax on
for file in argv()
  execute 'edit ' . fnameescape(file)
  syntax clear
  unlet! b:current_syntax
  execute 'source ' . $SYNTAX
  let groups = []
  for row in range(1, line('$'))
    let names = map(range(1, col([row, '$']) - 1), 'synIDattr(synID(row, v:val, 1), "name")')
    call add(groups, join(map(names, 'v:val ==# "" ? "-" : v:val'), ' '))
  endfor
  call writefile(groups, file . '.groups')
endfor
qall!
