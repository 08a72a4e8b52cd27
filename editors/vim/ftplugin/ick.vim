" INTERCAL: comments, and ick-advice as the program of :make
if exists('b:did_ftplugin')
  finish
endif
let b:did_ftplugin = 1

setlocal commentstring=DO\ NOTE\ %s
compiler ick
let b:undo_ftplugin = 'setlocal commentstring< makeprg< errorformat< | unlet! b:current_compiler'
