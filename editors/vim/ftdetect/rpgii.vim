" RPG II of the IBM System/3: files named *.rpg or *.punch, and files whose cards have H, F, I, C or O in column 6. Vim itself knows the names
" of texts, as *.txt, so the cards of a text count too.
autocmd BufNewFile,BufRead *.rpg,*.RPG,*.punch,*.PUNCH set filetype=rpgii
autocmd BufNewFile,BufRead * if (!did_filetype() || &filetype ==# "text") && rpgii#IsSource(getline(1, 60)) | set filetype=rpgii | endif
