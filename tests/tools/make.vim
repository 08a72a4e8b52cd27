" Opens each file, calls :make, and writes what it found into FILE.found: line, column and text. EDITORS names the files for vim.
execute 'set runtimepath^=' . $EDITORS
filetype plugin on
syntax on
for file in argv()
  execute 'edit ' . fnameescape(file)
  silent make!
  let found = map(getqflist(), '[v:val.lnum, v:val.col, v:val.text] + [fnamemodify(bufname(v:val.bufnr), ":p")]')
  call writefile(map(found, 'join(v:val, "\t")'), file . '.found')
endfor
qall!
