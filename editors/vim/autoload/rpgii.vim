" What the cards of an RPG II source have in which columns. The table is in rpgii_entries.vim, which `tools/check/editors` writes.

" Whether lines are those of a source or of a deck that begins with one: between its statements and its comments, as a ruler, each line that
" isn't blank is a card of a sheet, and there are two at least.
function! rpgii#IsSource(lines) abort
  let l:cards = 0
  for l:line in a:lines
    if l:line =~# '^/[*&]'
      break
    elseif l:line =~# '^//' || l:line =~# '^[#%]' || l:line =~# '^.\{6}\*' || l:line =~# '^\s*$'
      continue
    elseif l:line !~? '^\%([ 0-9]\{5}\|\t\)[HFICO]'
      return 0
    endif
    let l:cards += 1
  endfor
  return l:cards > 1
endfunction

" A line as its card has it: capitals, and tabs as blanks.
function! rpgii#Card(line) abort
  let l:card = ""
  for l:character in split(toupper(a:line), '\zs')
    if l:character ==# "\t"
      let l:card .= repeat(" ", s:UpToStop(l:card))
    else
      let l:card .= l:character
    endif
  endfor
  return l:card
endfunction

" How many blanks a tab after a card fills.
function! s:UpToStop(card) abort
  let l:width = strchars(a:card)
  if a:card =~# '^//'
    return 8 - l:width % 8
  endif
  let l:stops = l:width < 5 ? [6] : get(g:rpgii_entries#stops, strcharpart(a:card, 5, 1), [])
  for l:stop in l:stops
    if l:stop > l:width + 1
      return l:stop - 1 - l:width
    endif
  endfor
  return empty(l:stops) ? 8 - l:width % 8 : 1
endfunction

" Which kind of card a card is, as `C card` or `I field`; empty for a statement, a comment and data.
function! rpgii#Kind(card) abort
  let l:sheet = strcharpart(a:card, 5, 1)
  if a:card =~# '^[/#%]' || strcharpart(a:card, 6, 1) ==# "*" || l:sheet !~# '^[HFICO]$'
    return ""
  elseif l:sheet =~# '[HFC]'
    return l:sheet . " card"
  elseif strcharpart(a:card, 6, 10) =~# '^ \{7}\%(AND\|OR\)'
    return l:sheet . " group"
  elseif strcharpart(a:card, 6, l:sheet ==# "I" ? 8 : 9) =~# '\S'
    return l:sheet . " record"
  endif
  return l:sheet . " field"
endfunction

" Whether nothing of a card shows yet whether it is one of a record or of a field. Its kind is then that of a field.
function! s:IsUndecided(card) abort
  let l:first = get(g:rpgii_entries#fields, strcharpart(a:card, 5, 1), 75)
  return rpgii#Kind(a:card) =~# ' field$' && strcharpart(a:card, l:first - 1, 75 - l:first) !~# '\S'
endfunction

" The entries of a card. One that isn't decided has those of a record too, except in columns of a field's entries.
function! s:Entries(card) abort
  let l:entries = get(g:rpgii_entries#cards, rpgii#Kind(a:card), [])
  if !s:IsUndecided(a:card)
    return l:entries
  endif
  let l:others = copy(g:rpgii_entries#cards[strcharpart(a:card, 5, 1) . " record"])
  for l:entry in l:entries
    call filter(l:others, 'v:val.to < l:entry.from || l:entry.to < v:val.from')
  endfor
  return l:others + l:entries
endfunction

" The entry of a column of a card; empty if it has none. If two entries share the column, it is the one whose values the card has, or the
" later one.
function! rpgii#EntryAt(card, column) abort
  let l:found = {}
  for l:entry in s:Entries(a:card)
    if l:entry.from <= a:column && a:column <= l:entry.to
      let l:found = l:entry
      if index(l:entry.values, trim(strcharpart(a:card, l:entry.from - 1, l:entry.to - l:entry.from + 1))) >= 0
        return l:entry
      endif
    endif
  endfor
  return l:found
endfunction

" Whether the line at the cursor is data of a job, as the syntax has it.
function! s:IsData() abort
  return synIDattr(synID(line("."), 1, 0), "name") ==# "rpgiiJob"
endfunction

" The column of the card at the cursor.
function! s:Column() abort
  return strchars(rpgii#Card(strpart(getline("."), 0, col(".") - 1))) + 1
endfunction

" The sheet, the columns and the name of the entry at the cursor, as `C 28-32 operation`.
function! rpgii#Ruler() abort
  let l:card = rpgii#Card(getline("."))
  let l:entry = rpgii#EntryAt(l:card, s:Column())
  if empty(l:entry) || s:IsData()
    return ""
  endif
  let l:columns = l:entry.from == l:entry.to ? l:entry.from : l:entry.from . "-" . l:entry.to
  return strcharpart(l:card, 5, 1) . " " . l:columns . " " . l:entry.name
endfunction

" The blanks up to the next entry of the sheet; of a line that is no card, up to every eighth column. In Replace mode, what the line has
" there stays, and the cursor moves over it.
function! rpgii#Tab() abort
  let l:before = strpart(getline("."), 0, col(".") - 1)
  let l:count = s:UpToStop(rpgii#Card(l:before))
  let l:passed = mode() =~# "^R" ? min([l:count, strchars(getline(".")) - strchars(l:before)]) : 0
  return repeat("\<Right>", l:passed) . repeat(" ", l:count - l:passed)
endfunction

" Shows the tabs of the file as the sheet of the line at the cursor has them.
function! rpgii#SetStops() abort
  let l:card = rpgii#Card(getline("."))
  let l:stops = get(g:rpgii_entries#stops, strcharpart(l:card, 5, 1), [])
  if l:card =~# '^//' || empty(l:stops) || s:IsData()
    let l:wanted = ""
  else
    let l:before = 1
    let l:widths = []
    for l:stop in [6] + l:stops
      call add(l:widths, l:stop - l:before)
      let l:before = l:stop
    endfor
    let l:wanted = join(l:widths + [8], ",")
  endif
  if &l:vartabstop !=# l:wanted
    let &l:vartabstop = l:wanted
  endif
endfunction

" The command of :make. It compiles the files of the deck, with that of the buffer last.
function! rpgii#MakeCommand() abort
  let l:others = filter(copy(get(g:, "rpgii_files", [])), 'fnamemodify(v:val, ":p") !=# expand("%:p")')
  let l:words = map(l:others, 'escape(shellescape(v:val), "%#|")')
  return join([get(g:, "rpgii_bureau", "bureau"), "compile", "--messages"] + l:words + ["%:S"])
endfunction

" Counts the columns of the quickfix list in bytes, as Vim does; those of a message are characters.
function! rpgii#CountBytes() abort
  let l:entries = getqflist()
  for l:entry in filter(copy(l:entries), 'v:val.valid && bufloaded(v:val.bufnr)')
    let l:line = get(getbufline(l:entry.bufnr, l:entry.lnum), 0, "")
    let l:entry.col = max([l:entry.col, byteidx(l:line, l:entry.col - 1) + 1])
  endfor
  call setqflist([], "r", {"items": l:entries})
endfunction

" Completes the values of the entry at the cursor. In Replace mode, a value is as wide as its entry.
function! rpgii#Complete(is_first, base) abort
  let l:entry = rpgii#EntryAt(rpgii#Card(getline(".")), s:Column())
  if a:is_first
    return empty(l:entry) || empty(l:entry.values) ? -3 : min([l:entry.from - 1, col(".") - 1])
  endif
  let l:base = toupper(trim(a:base))
  let l:values = filter(copy(get(l:entry, "values", [])), {_, value -> stridx(value, l:base) == 0})
  return mode() =~# "^R" ? map(l:values, {_, value -> printf("%-*S", l:entry.to - l:entry.from + 1, value)}) : l:values
endfunction
