" Asks orgq, and puts the rows of its answer into a quickfix or location list. See :help orgq.
" SPDX-License-Identifier: Apache-2.0 OR MIT

" Questions ---------------------------------------------------------------------------------------------------------------

" The agenda: of today, or of so many days, from a date on. {words} holds a number of days, a date YYYY-MM-DD, both or none.
function! orgq#agenda(is_local, words) abort
  let arguments = ['agenda']
  for word in a:words
    if word =~# '^\d\{1,3}$'
      let arguments += ['-d', word]
    else
      call insert(arguments, word, 1)
    endif
  endfor
  call s:ask(a:is_local, arguments)
endfunction

" The open entries, or those with one of the keywords {words}.
function! orgq#todo(is_local, words) abort
  call s:ask(a:is_local, ['todo'] + a:words)
endfunction

" The entries of which {expression} holds. It may begin with a minus.
function! orgq#match(is_local, expression) abort
  call s:ask(a:is_local, ['match', '--', a:expression])
endfunction

" A clock table. {words} is a block and options, `--match` the last: what stands after it is one expression.
function! orgq#clock(is_local, words) abort
  let parts = matchlist(a:words, '^\(.\{-}\)\s*\%(--match\%(=\|\s\+\)\(.*\)\)\=$')
  let arguments = ['clock'] + split(parts[1])
  if !empty(parts[2])
    call add(arguments, '--match=' . parts[2])
  endif
  call s:ask(a:is_local, arguments)
endfunction

" What comes next: of 30 days, or of as many as {words} says.
function! orgq#next(is_local, words) abort
  call s:ask(a:is_local, ['next'] + (empty(a:words) ? [] : ['-d'] + a:words))
endfunction

" What the view {name} of the configuration folder shows.
function! orgq#view(is_local, name) abort
  call s:ask(a:is_local, ['view', a:name])
endfunction

" What looks planned and will not show. {words} holds options of the command and files, % and # among them.
function! orgq#check(is_local, words) abort
  call s:ask(a:is_local, ['check'] + map(copy(a:words), 'v:val =~# "^[%#~]" ? expand(v:val) : v:val'))
endfunction

" Asks the question of the present list again, and puts its rows in place of the old ones.
function! orgq#again(is_local) abort
  let context = s:list(a:is_local, {'context': 1}).context
  if type(context) != v:t_dict || !has_key(context, 'orgq')
    return s:complain('this list is no answer of orgq')
  endif
  call s:fill(a:is_local, context.orgq, 'r')
endfunction

" The program -------------------------------------------------------------------------------------------------------------

" The program and the options that hold for each question, over the files of the settings or over {files}.
function! s:command(files = get(g:, 'orgq_files', [])) abort
  let program = get(g:, 'orgq_command', ['orgq'])
  let command = type(program) == v:t_list ? copy(program) : [program]
  for path in a:files
    let command += ['-f', fnamemodify(path, ':p')]
  endfor
  return command + get(g:, 'orgq_options', [])
endfunction

" What `orgq config` says of the settings, with the options for each question: a dictionary as s:run gives it.
function! orgq#config() abort
  return s:run(s:command([]) + ['config'])
endfunction

" Whether the {words} of a check name files: then those of the settings aren't meant.
function! s:name_files(words) abort
  let is_value = 0
  for word in a:words
    if !is_value && word !~# '^-'
      return 1
    endif
    let is_value = word =~# '^--\%(only\|not\|severity\)$'
  endfor
  return 0
endfunction

" What {command} prints: a dictionary with its `status`, and the lines of its `output` and its `errors`. No shell is between.
function! s:run(command) abort
  if !executable(a:command[0])
    return {'status': -1, 'output': [], 'errors': ['there is no program ' . a:command[0] . ' (see g:orgq_command)']}
  endif
  return has('nvim') ? s:run_in_neovim(a:command) : s:run_in_vim(a:command)
endfunction

function! s:run_in_neovim(command) abort
  let result = {'stdout_buffered': 1, 'stderr_buffered': 1}
  let job = jobstart(a:command, result)
  call chanclose(job, 'stdin')
  let status = jobwait([job])[0]
  if status < 0
    call jobstop(job)
  endif
  return {'status': status, 'output': get(result, 'stdout', []), 'errors': get(result, 'stderr', [])}
endfunction

function! s:run_in_vim(command) abort
  let [output, errors] = [tempname(), tempname()]
  let job = job_start(a:command, {
        \ 'in_io': 'null', 'out_io': 'file', 'out_name': output, 'err_io': 'file', 'err_name': errors})
  try
    while job_status(job) ==# 'run'
      sleep 1m
    endwhile
    return {'status': job_info(job).exitval, 'output': readfile(output), 'errors': readfile(errors)}
  finally
    call job_stop(job)
    call delete(output)
    call delete(errors)
  endtry
endfunction

" The row of a {line} of JSON. Neovim makes no text of one that holds a NUL, and Vim none that shows it: `^@` stands for it.
function! s:decode(line) abort
  return json_decode(substitute(a:line, '\\\@<!\%(\\\\\)*\zs\\u0000', '^@', 'g'))
endfunction

" The rows of the answer to {arguments}, or v:null after a message where there is none.
function! s:rows(arguments) abort
  let command = a:arguments[0] ==# 'check' && s:name_files(a:arguments[1:]) ? s:command([]) : s:command()
  let answer = s:run(command + ['--json'] + a:arguments)
  call filter(answer.errors, '!empty(v:val)')
  " 0: there are rows; 1: there is none; 3: files were left out. After a check 0 and 1 are the other way round.
  if index([0, 1, 3], answer.status) < 0
    call s:complain(empty(answer.errors) ? 'ended with status ' . answer.status : answer.errors)
    return v:null
  endif
  for line in answer.errors
    call s:warn(line)
  endfor
  try
    return map(filter(answer.output, '!empty(v:val)'), 's:decode(v:val)')
  catch /^Vim\%((\a\+)\)\=:E/
    call s:complain('the program answers as no orgq does (see g:orgq_command)')
    return v:null
  endtry
endfunction

" Lists -------------------------------------------------------------------------------------------------------------------

function! s:ask(is_local, arguments) abort
  let rows = s:fill(a:is_local, a:arguments, ' ')
  if rows > 0 && get(g:, 'orgq_open', 1)
    execute 'botright' (a:is_local ? 'lopen' : 'copen')
  endif
endfunction

" Asks {arguments}, makes the answer a list (a new one, or by {action} 'r' in place of the present one) and gives the number of
" its rows, -1 where the question was refused.
function! s:fill(is_local, arguments, action) abort
  let rows = s:rows(a:arguments)
  if rows is v:null
    return -1
  endif
  let is_check = a:arguments[0] ==# 'check'
  let list = {
        \ 'title': 'orgq ' . join(a:arguments), 'context': {'orgq': a:arguments},
        \ 'items': is_check ? map(rows, 's:finding(v:val)') : s:items(rows),
        \ 'quickfixtextfunc': is_check ? '' : 'orgq#lines'}
  if a:action ==# 'r'
    let list.idx = s:list(a:is_local, {'idx': 0}).idx
  endif
  if a:is_local
    call setloclist(0, [], a:action, list)
  else
    call setqflist([], a:action, list)
  endif
  call s:say_what_is_unsaved(list.items)
  if empty(rows)
    echo is_check ? 'orgq: nothing is found' : 'orgq: no row'
  endif
  return len(rows)
endfunction

function! s:list(is_local, what) abort
  return a:is_local ? getloclist(0, a:what) : getqflist(a:what)
endfunction

" An item for each row, and before the rows of a day, or of a step of a table, one without a place that names it; before the rows
" of each command of a view one with its title.
function! s:items(rows) abort
  let items = []
  let [title, head] = ['', '']
  for row in a:rows
    if get(row, 'block', title) !=# title
      let [title, head] = [row.block, '']
      call add(items, {'text': '── ' . title . ' ──', 'valid': 0})
    endif
    let own = s:head_line(row)
    if own !=# head && own !=# ''
      let head = own
      call add(items, {'text': head, 'valid': 0})
    endif
    call add(items, s:item(row))
  endfor
  return items
endfunction

" The line under which a row stands: that of its day, or of the days of its table. Not all programs say these.
function! s:head_line(row) abort
  if has_key(a:row, 'day')
    return s:day_line(a:row.day)
  endif
  return has_key(a:row, 'from') && has_key(a:row, 'to') ? a:row.from . ' ' . a:row.to : ''
endfunction

" `nr` is the number of days of late rows and warnings, as errors have numbers.
function! s:item(row) abort
  let item = {'text': a:row.text, 'type': s:type(a:row.kind), 'valid': has_key(a:row, 'file')}
  if has_key(a:row, 'file')
    let item.filename = fnamemodify(a:row.file, ':p')
    let item.lnum = get(a:row, 'line', 1)
  endif
  if has_key(a:row, 'days')
    let item.nr = a:row.days
  endif
  return item
endfunction

" An item of what a check found.
function! s:finding(found) abort
  return {'filename': fnamemodify(a:found.file, ':p'), 'lnum': a:found.line, 'end_lnum': a:found.line,
        \ 'col': a:found.column, 'end_col': a:found.column + a:found.length,
        \ 'type': toupper(a:found.severity[0]), 'text': a:found.text . ' [' . a:found.kind . ']', 'valid': 1}
endfunction

" What is late is an error, what is due soon a warning, all else information.
function! s:type(kind) abort
  return get({'late-deadline': 'E', 'late-scheduled': 'E', 'deadline': 'W', 'warning': 'W'}, a:kind, 'I')
endfunction

" The line of a day as agendas have it: 2024-02-28 Wed W09. Names of days are English, whatever the language of the editor.
function! s:day_line(day) abort
  if !exists('*strptime')
    return a:day
  endif
  let noon = strptime('%Y-%m-%d %H', a:day . ' 12')
  return a:day . ' ' . ['Sun', 'Mon', 'Tue', 'Wed', 'Thu', 'Fri', 'Sat'][strftime('%w', noon)] . strftime(' W%V', noon)
endfunction

" The lines of the list's window: those of the view, without file names and numbers.
function! orgq#lines(info) abort
  let what = {'id': a:info.id, 'items': 1}
  let items = (a:info.quickfix ? getqflist(what) : getloclist(a:info.winid, what)).items
  return map(items[a:info.start_idx - 1 : a:info.end_idx - 1], 'v:val.text')
endfunction

" orgq reads files: says so where a buffer of the list has changes that no file has.
function! s:say_what_is_unsaved(items) abort
  let shown = {}
  for item in a:items
    let shown[get(item, 'filename', '')] = 1
  endfor
  let names = {}
  for buffer in getbufinfo({'bufmodified': 1})
    if buffer.name !=# '' && has_key(shown, buffer.name)
      let names[fnamemodify(buffer.name, ':t')] = 1
    endif
  endfor
  if !empty(names)
    call s:warn('not yet saved, so shown as last written: ' . join(sort(keys(names)), ', '))
  endif
endfunction

" Messages ----------------------------------------------------------------------------------------------------------------

function! s:complain(lines) abort
  echohl ErrorMsg
  for line in type(a:lines) == v:t_list ? a:lines : [a:lines]
    echomsg line =~# '^orgq: \|^ ' ? line : 'orgq: ' . line
  endfor
  echohl None
endfunction

function! s:warn(line) abort
  echohl WarningMsg
  echomsg a:line =~# '^orgq: ' ? a:line : 'orgq: ' . a:line
  echohl None
endfunction

" Completion --------------------------------------------------------------------------------------------------------------

" Those of {words} that begin with {lead}.
function! s:beginning(lead, words) abort
  return filter(copy(a:words), 'strpart(v:val, 0, len(a:lead)) ==# a:lead')
endfunction

function! orgq#complete_agenda(lead, line, at) abort
  let dates = map(range(0, 13), 'strftime("%Y-%m-%d", localtime() + 86400 * v:val)')
  return s:beginning(a:lead, ['1', '7', '14', '31'] + dates)
endfunction

function! orgq#complete_next(lead, line, at) abort
  return s:beginning(a:lead, ['1', '7', '30', '365'])
endfunction

" The keywords that headings have.
function! orgq#complete_todo(lead, line, at) abort
  let given = split(a:line)[1:]
  return filter(s:beginning(a:lead, s:keywords()), 'v:val ==# a:lead || index(given, v:val) < 0')
endfunction

" Tags and names of properties after a sign, keywords after a slash.
function! orgq#complete_match(lead, line, at) abort
  let front = matchstr(a:lead, '^.*[-+|&/!]')
  let is_keyword = front =~# '/'
  let names = is_keyword ? s:keywords() : s:tags() + orgq#own_names()
  return map(s:beginning(strpart(a:lead, len(front)), names), 'front . v:val')
endfunction

function! orgq#complete_clock(lead, line, at) abort
  let now = localtime()
  let words = ['today', 'yesterday', 'thisweek', 'lastweek', 'thismonth', 'lastmonth', 'thisyear', 'lastyear']
        \ + [strftime('%G-W%V', now), strftime('%Y-%m', now), strftime('%Y', now)]
        \ + ['--level', '--step', '--effort', '--match']
  if a:line =~# '--step\s\+\S*$'
    let words = ['day', 'week']
  elseif a:line =~# '--match'
    return orgq#complete_match(a:lead, a:line, a:at)
  endif
  return s:beginning(a:lead, words)
endfunction

" The names of views.
function! orgq#complete_view(lead, line, at) abort
  let answer = s:run(s:command([]) + ['views'])
  return s:beginning(a:lead, filter(map(answer.output, 'matchstr(v:val, "^[a-z][a-z0-9-]*\\ze ")'), 'v:val !=# ""'))
endfunction

" Files, options, and kinds of findings with commas between.
function! orgq#complete_check(lead, line, at) abort
  if a:line =~# '--\%(only\|not\)\s\+\S*$'
    let front = matchstr(a:lead, '^.*,')
    return map(s:beginning(strpart(a:lead, len(front)), s:kinds()), 'front . v:val')
  elseif a:line =~# '--severity\s\+\S*$'
    return s:beginning(a:lead, ['error', 'warning', 'note'])
  elseif a:lead =~# '^-'
    return s:beginning(a:lead, ['--only', '--not', '--all', '--severity'])
  endif
  return s:beginning(a:lead, ['%']) + getcompletion(a:lead, 'file')
endfunction

" The names of all kinds, as the program lists them where it refuses one.
function! s:kinds() abort
  let said = join(s:run(s:command() + ['check', '--only', '?']).errors, '')
  return split(matchstr(said, 'there are \zs.*'), ', ')
endfunction

function! orgq#own_names() abort
  return ['TODO', 'PRIORITY', 'LEVEL', 'ITEM', 'CATEGORY', 'FILE', 'TAGS', 'ALLTAGS', 'SCHEDULED', 'DEADLINE', 'CLOSED']
endfunction

" What headings have, without a message where nothing can be asked: while one completes, none is of use.
function! s:quiet_rows() abort
  let answer = s:run(s:command() + ['--json', 'match', 'LEVEL>0'])
  return index([0, 3], answer.status) < 0 ? [] : map(filter(answer.output, '!empty(v:val)'), 's:decode(v:val)')
endfunction

" Those of {words} that can be typed, each once.
function! s:each_once(words) abort
  return uniq(sort(filter(a:words, 'stridx(v:val, "^@") < 0')))
endfunction

function! s:keywords() abort
  return s:each_once(map(filter(s:quiet_rows(), 'has_key(v:val, "keyword")'), 'v:val.keyword'))
endfunction

function! s:tags() abort
  let tags = []
  for row in s:quiet_rows()
    let tags += row.tags
  endfor
  return s:each_once(tags)
endfunction
