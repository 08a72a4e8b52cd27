" INTERCAL-72 as ick reads it: a statement begins at DO or PLEASE, inside other words too.
if exists('b:current_syntax')
  finish
endif
syntax case match

" what no statement has read is unread, unless a match below takes it
syntax match ickUnread /\_[^[:space:]]/
syntax match ickLabel /(\_s*\d\+\_s*)/
syntax match ickMark /[.:,;#&V?$~'"!+]\|<-/
syntax match ickNumber /\d\+/
" no word needs white around it, so these are no keywords of vim
syntax match ickWord /CALCULATING\|NEXTING\|FORGETTING\|RESUMING\|STASHING\|RETRIEVING\|IGNORING\|REMEMBERING\|ABSTAINING\|REINSTATING\|WRITING\_s*IN\|READING\_s*OUT\|NEXT\|FORGET\|RESUME\|STASH\|RETRIEVE\|IGNORE\|REMEMBER\|ABSTAIN\|FROM\|REINSTATE\|GIVE\_s*UP\|WRITE\_s*IN\|READ\_s*OUT\|SUB\|BY/
syntax match ickChance /%\_s*\d\+/
syntax match ickIdentifier /PLEASE\_s*DO\|PLEASE\|DO/
" what the library's two statements say that can't be read on purpose
syntax match ickLibrary /BEFORE\_s*THE\_s*LIBRARY\_s*BEGINS\|EXPECT\_s*NO\_s*ANSWER,\_s*FOR\_s*THE\_s*RESULT\_s*IS\_s*TOO\_s*LARGE/
" NOT or N'T makes a comment, up to the next start; the label behind FROM or REINSTATE is no start, nor is the DO of
" READOUT in front of a list
syntax match ickComment /\%(\%(PLEASE\_s*DO\|PLEASE\|DO\)\_s*\%(%\_s*\d\+\_s*\)\?\)\@<=N\%(OT\|'T\)\%(\%(\_s*%\_s*\d\+\)\?\_s*READOUT\_s*[.:,;#]\)\?\_.\{-}\ze\%(\%(\%(\%(FROM\|REINSTATE\)\_s*\)\@<!(\_s*\d\+\_s*)\_s*\)\?\%(DO\|PLEASE\)\|\%$\)/

" a comment can begin lines before those that are shown
syntax sync minlines=100

highlight default link ickUnread Error
highlight default link ickLabel Label
highlight default link ickMark Operator
highlight default link ickNumber Number
highlight default link ickWord Statement
highlight default link ickChance Special
highlight default link ickIdentifier Keyword
highlight default link ickComment Comment
highlight default link ickLibrary Comment
let b:current_syntax = 'ick'
