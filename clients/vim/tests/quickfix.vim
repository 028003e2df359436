" The commands over orgq, in Vim and Neovim:
" SPDX-License-Identifier: Apache-2.0 OR MIT
"   ORGQ=PROGRAM vim -es -u NONE -i NONE -S tests/quickfix.vim     or nvim --headless -u NONE -i NONE -S ..
" Prints a line for each failure and `N passed, N failed`; the status is 1 where one failed.
set nocompatible nomore encoding=utf-8 hidden noswapfile
let s:here = expand('<sfile>:p:h:h')
execute 'set runtimepath^=' . fnameescape(s:here)
execute 'set runtimepath+=' . fnameescape(s:here . '/after')
runtime plugin/orgq.vim
filetype plugin on
syntax on

let s:lines = []
let s:passed = 0
let s:failed = 0

function! s:check(name, is_so) abort
  if a:is_so
    let s:passed += 1
  else
    let s:failed += 1
    call add(s:lines, 'failed: ' . a:name)
  endif
endfunction

function! s:equal(name, found, wanted) abort
  call s:check(a:name . ': ' . string(a:found) . ' and not ' . string(a:wanted), a:found ==# a:wanted)
endfunction

" What was said by {command}.
function! s:said(command) abort
  redir => l:said
  silent! execute a:command
  redir END
  return l:said
endfunction

" Files -------------------------------------------------------------------------------------------------------------------

let s:folder = tempname()
call mkdir(s:folder)

function! s:write(name, lines) abort
  call writefile(a:lines, s:folder . '/' . a:name)
endfunction

" One row of each kind, on 28 February 2024.
call s:write('home.org', [
      \ '#+FILETAGS: :home:',
      \ '* TODO Pay rent', 'SCHEDULED: <2024-02-01 Thu +1m>',
      \ '* Dentist <2024-02-28 Wed 08:15-09:00>',
      \ '* Fair <2024-02-27 Tue>--<2024-02-29 Thu>',
      \ '* TODO Tax return', 'DEADLINE: <2024-02-20 Tue>',
      \ '* TODO Today', 'SCHEDULED: <2024-02-28 Wed>',
      \ '* TODO Due today', 'DEADLINE: <2024-02-28 Wed>',
      \ '* TODO Soon', 'DEADLINE: <2024-03-05 Tue>',
      \ ])
call s:write('my notes.org', [
      \ '#+TODO: TODO NEXT | DONE', 'Before the first heading.', '',
      \ '* NEXT 宿題：第七課 :日本:', 'SCHEDULED: <2024-02-28 Wed 18:30>',
      \ '* TODO A | B "quoted" 100% \ #tag',
      \ '* TODO Café', 'CLOCK: [2024-02-27 Tue 09:10]--[2024-02-27 Tue 10:40]',
      \ '** DONE Below it', 'CLOCK: [2024-02-27 Tue 11:00]--[2024-02-27 Tue 11:30]',
      \ ])

let g:orgq_command = [$ORGQ]
let g:orgq_files = [s:folder]
let g:orgq_options = ['--at', '2024-02-28 10:30']

function! s:valid() abort
  return filter(getqflist(), 'v:val.valid')
endfunction

" Goes to each row of the list: the line must be a heading, and the row must show its title.
function! s:lead_to_their_lines(name) abort
  let row = 0
  for item in getqflist()
    let row += 1
    if !item.valid
      continue
    endif
    execute 'silent cc' row
    let title = substitute(getline('.'), '^\*\+ \+\%(\u\+ \)\=\|\s\+:\S\+:$', '', 'g')
    call s:check(a:name . ': ' . item.text . ' led to ' . getline('.'), getline('.') =~# '^\*' && stridx(item.text, title) >= 0)
    call s:equal(a:name . ', cursor', [bufnr('%'), line('.')], [item.bufnr, item.lnum])
  endfor
endfunction

" Agendas -----------------------------------------------------------------------------------------------------------------

silent OrgqAgenda
call s:equal('rows of today', len(s:valid()), 8)
call s:equal('the first line is the day', getqflist()[0].text, '2024-02-28 Wed W09')
call s:equal('and no place', getqflist()[0].valid, 0)
call s:equal('title', getqflist({'title': 1}).title, 'orgq agenda')
call s:equal('the window', [&buftype, getline(1), getline(2)],
      \ ['quickfix', '2024-02-28 Wed W09', '  home:       08:15-09:00 Dentist <2024-02-28 Wed 08:15-09:00> :home:'])
call s:equal('its colours', synIDattr(synID(1, 1, 1), 'name'), 'orgviewsDay')
call s:lead_to_their_lines('agenda')
let s:types = {}
for s:item in s:valid()
  let s:types[matchstr(s:item.text, 'Dentist\|Fair\|Tax return\|Due today\|Today\|Soon\|Pay rent\|宿題')] = s:item.type . s:item.nr
endfor
call s:equal('types and days', s:types, {
      \ 'Dentist': 'I0', 'Fair': 'I0', 'Tax return': 'E8', 'Due today': 'W0', 'Today': 'I0', 'Soon': 'W6', 'Pay rent': 'E27',
      \ '宿題': 'I0'})

silent OrgqAgenda 2024-02-26 7
call s:equal('a week', getqflist({'title': 1}).title, 'orgq agenda 2024-02-26 -d 7')
call s:equal('its days with rows', map(filter(getqflist(), '!v:val.valid'), 'v:val.text'),
      \ ['2024-02-27 Tue W09', '2024-02-28 Wed W09', '2024-02-29 Thu W09', '2024-03-01 Fri W09'])
silent OrgqAgenda 7 2024-02-26
call s:equal('in either order', getqflist({'title': 1}).title, 'orgq agenda 2024-02-26 -d 7')
call s:lead_to_their_lines('week')
silent! 1cc
silent cnext
call s:check('cnext passes over the day', getline('.') =~# 'Fair')
let s:before = getqflist({'nr': '$'}).nr
call s:check('no such day is said', s:said('OrgqAgenda 2024-02-30') =~# 'orgq: ')
call s:equal('and makes no list', getqflist({'nr': '$'}).nr, s:before)

" Lists -------------------------------------------------------------------------------------------------------------------

silent OrgqTodo
call s:equal('open', len(s:valid()), 8)
call s:lead_to_their_lines('todo')
silent OrgqTodo NEXT DONE
call s:equal('by keyword', map(s:valid(), 'matchstr(v:val.text, "NEXT\\|DONE")'), ['NEXT', 'DONE'])
silent OrgqTodo NOPE
call s:equal('none', getqflist({'size': 1, 'title': 1}), {'size': 0, 'title': 'orgq todo NOPE'})
silent OrgqMatch -home/!
call s:equal('a minus in front', map(s:valid(), 'v:val.lnum'), [4, 6, 7])
silent OrgqMatch ITEM={A | B "quoted"}
call s:equal('bars and quotation marks', map(s:valid(), 'v:val.lnum'), [6])
call s:lead_to_their_lines('match')
call s:check('a refused expression', s:said('OrgqMatch home+') =~# '\^')
silent OrgqMatch 日本
call s:equal('wide characters', len(s:valid()), 1)

" Tables and what comes next ------------------------------------------------------------------------------------------------

silent OrgqClock
" The lines of the list but those that name the days of a table, which not all programs say.
function! s:table() abort
  return filter(getqflist(), 'v:val.text !~# "^\\d\\{4}-\\d\\d-\\d\\d \\d\\{4}-"')
endfunction

call s:equal('table', map(s:table(), '[v:val.valid, v:val.lnum]'), [[0, 0], [1, 1], [1, 7], [1, 9]])
silent OrgqClock lastweek
call s:equal('another block', getqflist({'title': 1}).title, 'orgq clock lastweek')
silent OrgqClock 2024-02-27 --level 1 --match ITEM={Below it}
call s:equal('an expression with a space', map(s:table(), 'v:val.text'),
      \ ['0:30     *', '0:30     ' . s:folder . '/my notes.org', '0:30       Café'])
silent OrgqClock thisweek --step day --level 1
call s:equal('steps', len(filter(getqflist(), 'v:val.text =~# " \\*$"')), 7)
call s:check('a refused block', s:said('OrgqClock someday') =~# 'orgq: ')
silent OrgqNext 7
call s:equal('next', getqflist({'title': 1}).title, 'orgq next -d 7')
call s:lead_to_their_lines('next')

" Views -----------------------------------------------------------------------------------------------------------------------

let $XDG_CONFIG_HOME = s:folder . '/config'
call mkdir(s:folder . '/config/orgq', 'p')
call s:write('config/orgq/views', ['[morning]', 'show = todo NEXT --title Next', 'show = agenda tomorrow', '', '[calls]', 'show = match nosuch'])
silent OrgqView morning
call s:equal('titles stand above rows', map(filter(getqflist(), '!v:val.valid'), 'v:val.text')[0], '── Next ──')
call s:check('rows lead to their headings', !empty(filter(getqflist(), 'v:val.valid && bufname(v:val.bufnr) =~# "my notes.org$"')))
call s:equal('the title of the list', getqflist({'title': 1}).title, 'orgq view morning')
call s:equal('names of views', orgq#complete_view('m', 'OrgqView m', 10), ['morning'])
call s:check('no row of a view', s:said('OrgqView calls') =~# 'no row')
call s:check('a view that there is not', s:said('OrgqView evening') =~# 'no view has this name; there are morning, calls')
cclose
unlet $XDG_CONFIG_HOME

" What will not show ----------------------------------------------------------------------------------------------------------

" Place, type and kind of each item.
function! s:found() abort
  return map(getqflist(), '[bufname(v:val.bufnr) =~# "lost.org$", v:val.lnum, v:val.col, v:val.type, matchstr(v:val.text, "\\[\\zs[-a-z]*\\ze]$")]')
endfunction

call s:write('lost.org', ['* TODO 宿題 [#a]', '', 'DEADLINE: <2024-03-01 Fri>', 'é <2024-02-30 Fri>', '# <2024-02-28 Wed>',
      \ '* DONE b', 'SCHEDULED: <2024-02-28 Wed +1w>'])
silent OrgqCheck
call s:equal('a check of all files', s:found(), [[1, 3, 1, 'E', 'stray-planning'], [1, 4, 4, 'E', 'no-such-date'],
      \ [1, 7, 12, 'N', 'repeater-on-done']])
call s:equal('its title', getqflist({'title': 1}).title, 'orgq check')
call s:check('the window names files', getline(1) =~# 'lost.org|3')
silent cnext
call s:equal('leads to the place', [expand('%:t'), line('.'), col('.')], ['lost.org', 4, 4])
call s:check('a sentence', getqflist()[0].text =~# 'line 2 is blank \[stray-planning\]$')
silent OrgqCheck --all --not no-such-date %
call s:equal('options and the buffer', s:found(), [[1, 3, 1, 'E', 'stray-planning'], [1, 5, 3, 'N', 'stamp-in-comment'],
      \ [1, 7, 12, 'N', 'repeater-on-done']])
cclose
silent OrgqCheck! --only no-such-date %
call s:equal('a location list of findings', map(getloclist(0), 'v:val.lnum'), [4])
lclose
execute 'silent OrgqCheck' fnameescape(s:folder . '/my notes.org')
call s:equal('nothing is found', getqflist({'size': 1}).size, 0)
call s:check('and it is said', s:said('OrgqCheck --only bad-repeater %') =~# 'nothing is found')
call s:check('a kind that there is not', s:said('OrgqCheck --only bad %') =~# 'no such kind: bad; there are no-such-date, ')
silent OrgqCheck --only no-such-date %
call s:write('lost.org', ['* a'])
silent OrgqAgain
call s:equal('a check again', getqflist({'size': 1}).size, 0)
call s:equal('kinds', orgq#complete_check('no-such-date,stray-p', 'OrgqCheck --only no-such-date,stray-p', 37), ['no-such-date,stray-planning'])
call s:equal('severities', orgq#complete_check('w', 'OrgqCheck --severity w', 22), ['warning'])
call s:equal('options of a check', orgq#complete_check('--a', 'OrgqCheck --a', 13), ['--all'])
call delete(s:folder . '/lost.org')

" Location lists, again, what isn't saved --------------------------------------------------------------------------------------

let s:before = getqflist({'id': 0}).id
execute 'silent edit' fnameescape(s:folder . '/home.org')
silent OrgqTodo! NEXT
call s:equal('a location list', [len(getloclist(0)), getqflist({'id': 0}).id], [1, s:before])
silent lfirst
call s:equal('leads to its line', [expand('%:t'), getline('.')], ['my notes.org', '* NEXT 宿題：第七課 :日本:'])
silent! lclose
silent OrgqTodo
let s:id = getqflist({'id': 0}).id
silent 3cc
call writefile(['* TODO One more'], s:folder . '/more.org')
silent OrgqAgain
call s:equal('again', [len(s:valid()), getqflist({'id': 0}).id, getqflist({'idx': 0}).idx], [9, s:id, 3])
call delete(s:folder . '/more.org')
execute 'silent edit' fnameescape(s:folder . '/home.org')
call append('$', '* TODO Not saved')
call s:check('says what is not saved', s:said('OrgqTodo') =~# 'not yet saved.*home.org')
execute 'silent buffer!' bufnr('home.org')
silent edit!

" Completion --------------------------------------------------------------------------------------------------------------

call s:equal('keywords', orgq#complete_todo('', 'OrgqTodo ', 9), ['DONE', 'NEXT', 'TODO'])
call s:equal('the rest of them', orgq#complete_todo('', 'OrgqTodo TODO ', 14), ['DONE', 'NEXT'])
call s:equal('tags', orgq#complete_match('h', 'OrgqMatch h', 11), ['home'])
call s:equal('after a sign', orgq#complete_match('home-日', 'OrgqMatch home-日', 18), ['home-日本'])
call s:equal('keywords after a slash', orgq#complete_match('home/N', 'OrgqMatch home/N', 16), ['home/NEXT'])
call s:equal('blocks', orgq#complete_clock('last', 'OrgqClock last', 14), ['lastweek', 'lastmonth', 'lastyear'])
call s:equal('steps', orgq#complete_clock('', 'OrgqClock --step ', 17), ['day', 'week'])
call s:check('dates', index(orgq#complete_agenda('', 'OrgqAgenda ', 11), strftime('%Y-%m-%d')) >= 0)
call s:check('commands', index(getcompletion('Orgq', 'command'), 'OrgqMatch') >= 0)

" Trouble -----------------------------------------------------------------------------------------------------------------

call s:write('a[b]{c}*$HOME`touch x`.org', ['* x', '* TODO Signs'])
let g:orgq_files = [s:folder . '/a[b]{c}*$HOME`touch x`.org']
silent OrgqTodo
call s:equal('a path is what it says', len(s:valid()), 1)
call s:lead_to_their_lines('signs')
call delete(g:orgq_files[0])
let g:orgq_files = [s:folder]
call writefile(["* TODO \xff"], s:folder . '/latin.org')
call s:check('a file is left out', s:said('OrgqTodo') =~# 'latin.org')
call s:equal('and the others stay', len(s:valid()), 8)
call delete(s:folder . '/latin.org')
" A NUL is written as a line feed within a line; behind backslashes \u0000 is no NUL.
call writefile(['#+TODO: TODO W' . "\n" . ' | DONE', '* TODO nul' . "\n" . 'x ' . "\n\n", '* TODO \u0000 \' . "\n", '* W' . "\n" . ' kept'], s:folder . '/nul.org', 'b')
let g:orgq_files = [s:folder . '/nul.org']
silent OrgqTodo
call s:equal('a NUL breaks no list', map(s:valid(), '[v:val.lnum, matchstr(v:val.text, "\\%(TODO\\|W^@\\).*")]'),
      \ [[2, 'TODO nul^@x ^@^@'], [3, 'TODO \u0000 \^@'], [4, 'W^@ kept']])
call s:equal('nor the window of the list', getline(1, '$'), map(getqflist(), 'v:val.text'))
silent OrgqMatch TODO="TODO"
call s:equal('nor another list', len(s:valid()), 2)
silent OrgqCheck --all
call s:equal('a keyword that nobody can type is not offered', orgq#complete_todo('', 'OrgqTodo ', 9), ['TODO'])
call delete(s:folder . '/nul.org')
let g:orgq_files = [s:folder]
let g:orgq_command = ['/no/such/program']
let s:before = getqflist({'id': 0}).id
call s:check('no program', s:said('OrgqTodo') =~# 'there is no program /no/such/program')
call s:equal('and no list', getqflist({'id': 0}).id, s:before)
call s:equal('and no completion', orgq#complete_todo('', 'OrgqTodo ', 9), [])
let g:orgq_command = ['false']
call s:check('a program that says nothing', s:said('OrgqTodo') !~# 'E\d')
let g:orgq_command = ['echo', 'hello']
call s:check('one that says something else', s:said('OrgqTodo') =~# 'answers as no orgq does')

" Rows of tables that say their days stand under them, those that don't stand alone.
let s:stub = s:folder . '/stub'
let s:table_rows = ['{"kind":"total",%s"text":"1:30     *"}', '{"kind":"file",%s"file":"/o/a.org","text":"1:30     /o/a.org"}']
function! s:table_of(members) abort
  call writefile(['#!/bin/sh', 'cat <<X'] + map(copy(s:table_rows), 'printf(v:val, a:members)') + ['X'], s:stub)
endfunction
let g:orgq_command = ['sh', s:stub]
call s:table_of('')
silent OrgqClock today
call s:equal('a table without days', map(getqflist(), '[v:val.valid, v:val.text]'),
      \ [[0, '1:30     *'], [1, '1:30     /o/a.org']])
call s:table_of('"from":"2024-02-26","to":"2024-03-03",')
silent OrgqClock today
call s:equal('a table with days', map(getqflist(), '[v:val.valid, v:val.text]'),
      \ [[0, '2024-02-26 2024-03-03'], [0, '1:30     *'], [1, '1:30     /o/a.org']])
let g:orgq_command = $ORGQ
silent OrgqTodo
call s:equal('a text as program', len(s:valid()), 8)

call writefile(flatten(map(range(1, 1000), '["* TODO Task " . v:val . " 予定", "SCHEDULED: <2024-02-28 Wed>"]')), s:folder . '/many.org')
let s:start = reltime()
silent OrgqTodo
let s:took = reltimefloat(reltime(s:start))
call s:equal('a thousand rows', len(s:valid()), 1008)
silent cc 900
call s:check('the 900th', getline('.') =~# '^\* TODO Task \d\+ 予定$' && stridx(getqflist()[899].text, getline('.')[2:]) >= 0)

call delete(s:folder, 'rf')
call add(s:lines, printf('%s: a thousand rows in %.0f ms', has('nvim') ? 'Neovim' : 'Vim', s:took * 1000))
call add(s:lines, printf('%d passed, %d failed', s:passed, s:failed))
call writefile(s:lines, '/dev/stdout', 'a')
execute s:failed ? 'cquit!' : 'qall!'
