" RPG II of the IBM System/3: cards, so columns count.
if exists("b:did_ftplugin")
  finish
endif
let b:did_ftplugin = 1

compiler bureau

setlocal textwidth=0 nowrap expandtab
setlocal comments=:# commentstring=#%s
setlocal omnifunc=rpgii#Complete
" A tab goes to the next entry of the card's sheet, as blanks. Vim asks an <expr> mapping before it has inserted the characters that were
" typed ahead, and this one after it.
inoremap <buffer> <silent> <Tab> <C-R>=rpgii#Tab()<CR>
" the entry at the cursor, as `C 28-32 operation`
setlocal statusline=%f\ %m%=%{rpgii#Ruler()}\ \ %l,%v
if !get(g:, "rpgii_keeps_laststatus", 0)
  set laststatus=2
endif

augroup rpgii
  autocmd! CursorMoved,CursorMovedI <buffer>
  " tabs that the file has are shown as its sheet has them
  autocmd CursorMoved,CursorMovedI <buffer> call rpgii#SetStops()
augroup END
augroup rpgii_columns
  autocmd! QuickFixCmdPost make
  autocmd QuickFixCmdPost make if &filetype ==# "rpgii" | call rpgii#CountBytes() | endif
augroup END
call rpgii#SetStops()

let b:undo_ftplugin = "setlocal textwidth< wrap< expandtab< comments< commentstring< omnifunc< statusline< vartabstop< makeprg< errorformat<"
      \ . "| silent! iunmap <buffer> <Tab>"
      \ . "| autocmd! rpgii CursorMoved,CursorMovedI <buffer>"
