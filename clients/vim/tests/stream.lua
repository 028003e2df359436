-- The commands over orgviews, in Neovim:
-- SPDX-License-Identifier: Apache-2.0 OR MIT
--   ORGVIEWS=PROGRAM ORGQ=PROGRAM nvim --headless -u NONE -i NONE -S tests/stream.lua
-- Prints a line for each failure and `N passed, N failed`; the status is 1 where one failed.

local here = vim.fn.fnamemodify(debug.getinfo(1, 'S').source:sub(2), ':p:h:h')
vim.opt.runtimepath:prepend(here)
vim.opt.runtimepath:append(here .. '/after')
vim.o.swapfile, vim.o.hidden, vim.o.more = false, true, false
vim.cmd('runtime plugin/orgq.vim')
vim.cmd('filetype plugin on')
vim.cmd('syntax on')

local api = vim.api
local orgviews = require('orgviews')
local Bytes = require('orgviews.bytes')
local Engine = require('orgviews.engine')
local Places = require('orgviews.places')
local Texts = require('orgviews.texts')
local lines, passed, failed = {}, 0, 0

local function check(name, is_so, found)
  if is_so then
    passed = passed + 1
  else
    failed = failed + 1
    table.insert(lines, 'failed: ' .. name .. (found ~= nil and ': ' .. vim.inspect(found) or ''))
  end
end

local function equal(name, found, wanted)
  check(name, vim.deep_equal(found, wanted), found)
end

local function run(name, test)
  local ok, why = xpcall(test, debug.traceback)
  check(name .. ' runs through', ok, why)
end

-- What was said by `command`.
local function said(command)
  local before = #vim.split(vim.fn.execute('messages'), '\n')
  vim.cmd(command)
  return table.concat(vim.list_slice(vim.split(vim.fn.execute('messages'), '\n'), before + 1), '\n')
end

local folder = vim.fn.tempname()
vim.fn.mkdir(folder)
folder = vim.loop.fs_realpath(folder)

local function write(name, text)
  local file = assert(io.open(folder .. '/' .. name, 'wb'))
  file:write(text)
  file:close()
  return folder .. '/' .. name
end

local home = write('home.org', [[
#+FILETAGS: :home:
* TODO Pay rent
SCHEDULED: <2024-02-01 Thu +1m>
* Dentist <2024-02-28 Wed 08:15-09:00>
* Fair <2024-02-27 Tue>--<2024-02-29 Thu>
* TODO Tax return
DEADLINE: <2024-02-20 Tue>
* TODO Today
SCHEDULED: <2024-02-28 Wed>
* TODO Due today
DEADLINE: <2024-02-28 Wed>
* TODO Soon
DEADLINE: <2024-03-05 Tue>
]])
local notes = write('my notes.org', [[
#+TODO: TODO NEXT | DONE
Before the first heading.

* NEXT 宿題：第七課 :日本:
SCHEDULED: <2024-02-28 Wed 18:30>
* TODO Café
CLOCK: [2024-02-27 Tue 09:10]--[2024-02-27 Tue 10:40]
** DONE Below it
CLOCK: [2024-02-27 Tue 11:00]--[2024-02-27 Tue 11:30]
]])

local program = vim.env.ORGVIEWS
vim.g.orgviews_command = { program }
vim.g.orgviews_at = '2024-02-28 10:30'
vim.g.orgq_files = { folder }
vim.g.orgq_command = { vim.env.ORGQ }
vim.env.XDG_CONFIG_HOME = folder .. '/no settings'

local function view_lines()
  return api.nvim_buf_get_lines(0, 0, -1, true)
end

local function buffer_text(buffer)
  return table.concat(api.nvim_buf_get_lines(buffer, 0, -1, true), '\n') .. '\n'
end

-- Presses keys in the present window.
local function press(keys)
  api.nvim_feedkeys(api.nvim_replace_termcodes(keys, true, false, true), 'xt', false)
end

-- What is said where keys are pressed.
local function said_by(keys)
  local before = #vim.split(vim.fn.execute('messages'), '\n')
  press(keys)
  return table.concat(vim.list_slice(vim.split(vim.fn.execute('messages'), '\n'), before + 1), '\n')
end

-- How many commands of each name `body` sends, by the engine that runs.
local function sent_by(body)
  local engine = orgviews.running()
  local sent = {}
  engine.send = function(self, line, ...)
    local word = line:match('^%l+')
    sent[word] = (sent[word] or 0) + 1
    return getmetatable(self).send(self, line, ...)
  end
  body()
  engine.send = nil
  return sent
end

local function file_of(path)
  local _, texts = orgviews.running()
  return vim.tbl_filter(function(item)
    return item.path == path
  end, texts.files)[1]
end

-- Goes to each row of the view that is shown, and back: the line must be the heading whose title the row shows.
local function leads_to_its_lines(name)
  local window = api.nvim_get_current_win()
  local buffer = api.nvim_get_current_buf()
  local count = 0
  for row, text in ipairs(view_lines()) do
    api.nvim_set_current_win(window)
    api.nvim_win_set_cursor(window, { row, 0 })
    if text:find('^  %S') or text:find('^%d+:%d%d%s%s%s+%S') and not text:find('%*$') and not text:find('%.org$') then
      press('<CR>')
      local line = api.nvim_get_current_line()
      local title = line:gsub('^%*+ ', ''):gsub('^%u+ ', ''):gsub('%s+:%S+:$', '')
      check(name .. ': ' .. text, line:find('^%*') and text:find(title, 1, true), line)
      count = count + 1
    end
  end
  api.nvim_set_current_win(window)
  equal(name .. ' stays in its buffer', api.nvim_win_get_buf(window), buffer)
  return count
end

run('agenda', function()
  vim.cmd('OrgviewsAgenda 2024-02-28')
  equal('its first lines', vim.list_slice(view_lines(), 1, 2), {
    '2024-02-28 Wed W09',
    '  home:       08:15-09:00 Dentist <2024-02-28 Wed 08:15-09:00> :home:',
  })
  equal('options', { vim.bo.modifiable, vim.bo.buftype, vim.bo.filetype }, { false, 'nofile', 'orgviews' })
  equal('colours', vim.fn.synIDattr(vim.fn.synID(1, 1, 1), 'name'), 'orgviewsDay')
  equal('rows', leads_to_its_lines('agenda'), 8)
  vim.cmd('only')
  vim.cmd('OrgviewsAgenda 3 2024-02-27')
  equal('days', #vim.tbl_filter(function(line)
    return line:find('^2024') ~= nil
  end, view_lines()), 3)
  local function first_line(keys)
    vim.cmd('normal ' .. keys)
    return view_lines()[1]
  end
  equal('forward', first_line('f'), '2024-03-01 Fri W09')
  equal('and back', first_line('2b'), '2024-02-24 Sat W08')
  equal('to today', first_line('.'), '2024-02-28 Wed W09')
  check('no such day', said('OrgviewsAgenda 2024-02-30'):find('no such day') ~= nil)
  vim.cmd('only')
end)

run('lists and tables', function()
  vim.cmd('OrgviewsTodo')
  equal('todo', leads_to_its_lines('todo'), 7)
  vim.cmd('only')
  vim.cmd('OrgviewsTodo NEXT DONE')
  equal('by keyword', #view_lines(), 2)
  vim.cmd('only')
  vim.cmd('OrgviewsMatch ITEM={a x}|日本')
  equal('match', #view_lines(), 1)
  leads_to_its_lines('match')
  check('no expression', said('OrgviewsMatch home+'):find('home%+ >') ~= nil)
  vim.cmd('only')
  vim.cmd('OrgviewsClock thisweek --level=2')
  equal('table', view_lines()[2], '2:00     *')
  equal('its headings', leads_to_its_lines('clock'), 2)
  check('no such block', said('OrgviewsClock someday'):find('no such block') ~= nil)
  vim.cmd('only')
  vim.cmd('OrgviewsClock 2024-02-27 --match ITEM={Below it}')
  equal('a match with a space', view_lines()[2], '0:30     *')
  vim.cmd('only')
end)

run('unsaved text', function()
  vim.cmd('edit ' .. vim.fn.fnameescape(notes))
  local buffer = api.nvim_get_current_buf()
  vim.cmd('OrgviewsTodo')
  local window = api.nvim_get_current_win()
  api.nvim_buf_set_lines(buffer, 3, 4, true, { '* TODO First', '* NEXT 二番目 [#A]' })
  vim.wait(5000, function()
    return view_lines()[#view_lines() - 1]:find('二番目') ~= nil
  end)
  check('the view follows', view_lines()[#view_lines() - 1]:find('二番目') ~= nil, view_lines())
  api.nvim_win_set_cursor(window, { #view_lines(), 0 })
  local under = api.nvim_get_current_line()
  api.nvim_buf_set_lines(buffer, 3, 3, true, { '* TODO Even before' })
  vim.wait(5000, function()
    return #view_lines() == 9
  end)
  equal('the cursor stays on its row', api.nvim_get_current_line(), under)
  -- Nothing asked since: the row's line has moved by two.
  api.nvim_buf_set_lines(buffer, 0, 0, true, { 'x', 'y' })
  press('<CR>')
  equal('a row leads to where its heading is now', api.nvim_get_current_line(), '* TODO Café')
  equal('in its buffer', api.nvim_get_current_buf(), buffer)
  equal('the engine has it', orgviews.engine_text(notes), buffer_text(buffer))
  vim.cmd('edit!')
  equal('and what is read anew', orgviews.engine_text(notes), buffer_text(buffer))
  vim.cmd('only')
end)

-- Edits at random, of one to four bytes a character, with undo and redo between: after each fifth the engine's text is the
-- buffer's.
run('edits at random', function()
  vim.cmd('edit ' .. vim.fn.fnameescape(home))
  vim.cmd('only')
  local buffer = api.nvim_get_current_buf()
  math.randomseed(20240228)
  local pieces = { 'a', 'é', '日', '🙂', ' ', '* TODO 宿題', '\n', '\n* ', 'e\204\129', ':x:', '<2024-02-28>' }
  local same = 0
  vim.cmd('OrgviewsTodo')
  vim.cmd('wincmd p')
  -- One edit of the buffer.
  local function edit()
    local choice = math.random(10)
    local count = api.nvim_buf_line_count(buffer)
    local row = math.random(count) - 1
    local line = api.nvim_buf_get_lines(buffer, row, row + 1, true)[1]
    if choice <= 4 then
      local chars = vim.fn.strchars(line)
      local from = vim.fn.byteidx(line, math.random(0, chars))
      local piece = pieces[math.random(#pieces)]
      api.nvim_buf_set_text(buffer, row, from, row, from, vim.split(piece, '\n', { plain = true }))
    elseif choice == 5 then
      local chars = vim.fn.strchars(line)
      local from = math.random(0, chars)
      local upto = math.random(from, chars)
      api.nvim_buf_set_text(buffer, row, vim.fn.byteidx(line, from), row, vim.fn.byteidx(line, upto), { 'ü' })
    elseif choice == 6 and count > 5 then
      api.nvim_buf_set_lines(buffer, row, math.min(count, row + math.random(3)), true, {})
    elseif choice == 7 then
      vim.cmd('silent! undo')
    elseif choice == 8 then
      vim.cmd('silent! redo')
    elseif choice == 9 then
      vim.cmd(('silent! %d normal! Aé日\27x.~p'):format(row + 1))
    else
      vim.cmd('silent! keeppatterns %s/a/ä/e | silent! ' .. math.random(count) .. 'move 0')
    end
  end
  -- How many edits are sent, and how often a whole text is asked for: by this test alone.
  local sent = sent_by(function()
    for step = 1, 300 do
      edit()
      if step % 5 == 0 then
        same = orgviews.engine_text(home) == buffer_text(buffer) and same + 1 or same
      end
    end
  end)
  equal('the engine has each text', same, 60)
  check('by edits', sent.edit > 40 and sent.text == 60, sent)
  for _ = 1, 400 do
    vim.cmd('silent! undo')
  end
  equal('all undone', { orgviews.engine_text(home) == buffer_text(buffer), view_lines()[2] }, { true, '* TODO Pay rent' })
  vim.cmd('silent! earlier 1f | silent! later 100')
  equal('back and forth in time', orgviews.engine_text(home) == buffer_text(buffer), true)
  vim.cmd('silent %delete')
  equal('all deleted', orgviews.engine_text(home), buffer_text(buffer))
  api.nvim_put({ '* TODO One', '* TODO Zwei' }, 'l', false, true)
  equal('put into it', orgviews.engine_text(home), buffer_text(buffer))
  vim.cmd('edit!')
  equal('read anew', orgviews.engine_text(home), buffer_text(buffer))
  local _, texts = orgviews.running()
  equal('no file is refused', { file_of(home).refused, #texts:missing() }, { nil, 0 })
end)

-- The same in a buffer that isn't the current one, as other plugins change it: Neovim counts its bytes otherwise.
run('edits from another window', function()
  local path = write('far.org', ('* TODO Far é\nText 日本.\n'):rep(50))
  vim.cmd('edit ' .. vim.fn.fnameescape(path))
  local buffer = api.nvim_get_current_buf()
  vim.cmd('OrgviewsTodo')
  math.randomseed(11)
  local pieces = { 'a', 'é', '日', '\n', '\n* TODO x\n', '🙂 :x:' }
  local same = 0
  local sent = sent_by(function()
    for _ = 1, 100 do
      for _ = 1, math.random(3) do
        local count = api.nvim_buf_line_count(buffer)
        local row = math.random(count) - 1
        local line = api.nvim_buf_get_lines(buffer, row, row + 1, true)[1]
        local from = vim.fn.byteidx(line, math.random(0, vim.fn.strchars(line)))
        if math.random(4) > 1 then
          local piece = pieces[math.random(#pieces)]
          api.nvim_buf_set_text(buffer, row, from, row, from, vim.split(piece, '\n', { plain = true }))
        else
          api.nvim_buf_set_text(buffer, row, 0, math.min(row + 1, count - 1), 0, { 'ü' })
        end
      end
      same = orgviews.engine_text(path) == buffer_text(buffer) and same + 1 or same
    end
  end)
  equal('the engine has each text', same, 100)
  equal('by edits', { sent.text, sent.edit > 90 }, { 100, true })
  vim.cmd('bwipeout! far.org')
  vim.fn.delete(path)
  vim.cmd('silent! only')
end)

run('other kinds of text', function()
  local dos = write('dos.org', '* TODO One\r\n* TODO Zwei ü\r\n')
  local bare = write('bare.org', '* TODO No end')
  local empty = write('empty.org', '')
  for _, path in ipairs({ dos, bare, empty }) do
    vim.cmd('edit ' .. vim.fn.fnameescape(path))
    local buffer = api.nvim_get_current_buf()
    vim.cmd('OrgviewsTodo')
    vim.cmd('wincmd p')
    equal(path .. ' as read', orgviews.engine_text(path), buffer_text(buffer))
    api.nvim_buf_set_lines(buffer, 0, 0, true, { '* TODO Added é', 'b' })
    equal(path .. ' as changed', orgviews.engine_text(path), buffer_text(buffer))
    vim.cmd('$delete')
    vim.cmd('undo')
    vim.cmd('silent normal! Gox日')
    vim.cmd('set nofixendofline noendofline')
    equal(path .. ' as changed again', orgviews.engine_text(path), buffer_text(buffer))
    vim.cmd('bwipeout!')
    vim.fn.delete(path)
    vim.cmd('only')
  end
  vim.cmd('OrgviewsTodo')
  local _, texts = orgviews.running()
  equal('files that went', #texts.files, 2)
  local bad = write('bad.org', '* TODO \255\n')
  check('what is no UTF-8 is left out', said('OrgviewsTodo'):find('bad.org: utf8') ~= nil)
  equal('and the others stay', #view_lines(), 7)
  vim.fn.delete(bad)
end)

run('files on disk', function()
  vim.cmd('silent! %bwipeout!')
  vim.cmd('OrgviewsTodo')
  check('none is loaded', said('OrgviewsStatus'):find('orgviews %S+ 2: 2 files, 0 of them') ~= nil)
  local more = write('more.org', '* TODO On disk\n')
  write('home.org', '* TODO Changed on disk\n')
  vim.cmd('OrgviewsTodo')
  equal('seen at the next question', #view_lines(), 4)
  equal('in their order', vim.trim(view_lines()[2]), 'more:       TODO On disk')
  leads_to_its_lines('from disk')
  vim.fn.delete(more)
  vim.cmd('only')
end)

run('trouble', function()
  vim.cmd('OrgviewsTodo')
  local before = view_lines()
  local engine = orgviews.running()
  engine.handle:kill('sigkill')
  vim.wait(5000, function()
    return not orgviews.running()
  end)
  check('its end is said', vim.fn.execute('messages'):find('the next question starts it anew') ~= nil)
  vim.cmd('OrgviewsTodo')
  equal('it starts anew', view_lines(), before)
  -- Asked before its end was told.
  orgviews.running():finish('a test')
  vim.cmd('OrgviewsTodo')
  equal('at once as well', { view_lines(), orgviews.running().ended }, { before, nil })
  -- Another session changes a text unseen: the buffer's wins, and nothing is lost of it.
  vim.cmd('only')
  vim.cmd('edit ' .. vim.fn.fnameescape(notes))
  local buffer = api.nvim_get_current_buf()
  vim.cmd('OrgviewsTodo')
  local running, texts = orgviews.running()
  local file = file_of(notes)
  local reply = running:ask(('edit 2 %s %d 0 0 2'):format(file.name, file.serial), '# ')
  check('another session', reply.ok ~= nil, reply)
  api.nvim_buf_set_lines(buffer, 0, 0, true, { '* TODO Mine' })
  equal('stale is compared anew', orgviews.engine_text(notes), buffer_text(buffer))
  equal('serial', file.serial > reply.ok, true)
  running:ask('drop ' .. file.name)
  api.nvim_buf_set_lines(buffer, 0, 1, true, { '* TODO Mine again' })
  equal('a dropped file comes again', orgviews.engine_text(notes), buffer_text(buffer))
  api.nvim_buf_set_lines(buffer, 0, 1, true, { '* TODO \255' })
  check('a buffer that is no UTF-8 is left out', said('OrgviewsTodo'):find('utf8') ~= nil)
  vim.cmd('wincmd p')
  api.nvim_buf_set_lines(buffer, 0, 1, true, { '* TODO Again' })
  equal('until it is', { orgviews.engine_text(notes) == buffer_text(buffer), #texts:missing() }, { true, 0 })
  orgviews.stop()
  equal('stopped', orgviews.running(), nil)
  vim.cmd('OrgviewsTodo')
  equal('and started', orgviews.engine_text(notes), buffer_text(buffer))
  orgviews.stop()
  vim.g.orgviews_command = { '/no/such/program' }
  check('no program', said('OrgviewsTodo'):find('there is no program /no/such/program') ~= nil)
  vim.g.orgviews_command = { 'sh', '-c', 'cat' }
  check('a program that speaks otherwise', said('OrgviewsTodo'):find('a reply that is none: version') ~= nil)
  vim.g.orgviews_command = { 'sh', '-c', [[echo "error: unexpected argument '--protocol' found" >&2; exit 2]] }
  check('one without the option', said('OrgviewsTodo'):find('a later orgviews is needed') ~= nil)
  vim.g.orgviews_command = { 'sh', '-c', "read -r line; printf 'view 17\\norgviews 0.4.0 1\\n'; cat > /dev/null" }
  check('one of the first protocol', said('OrgviewsTodo'):find('a later orgviews is needed') ~= nil)
  -- One that answers all but a list of tasks, which it answers by `answer`.
  local function stub(answer)
    return { 'sh', '-c', [[while IFS= read -r line; do case $line in todo) printf ']] .. answer .. [[' ;;
      version) printf 'view 17\norgviews 0.4.0 2\n' ;; add*) set -- $line; head -c $3 > /dev/null; echo ok 1 ;;
      places*) : ;; *) echo ok 1 ;; esac; done]] }
  end
  for _, length in ipairs({ '99999999999999999999999', '999999999999' }) do
    vim.g.orgviews_command = stub('view ' .. length .. '\\n')
    check('a huge view: ' .. length, said('OrgviewsTodo'):find('more than Neovim takes') ~= nil)
  end
  Engine.patience = 300
  vim.g.orgviews_command = stub('view 1000\\nx')
  check('a view that breaks off', said('OrgviewsTodo'):find('it stopped answering') ~= nil)
  vim.g.orgviews_command = { 'sh', '-c', 'sleep 30' }
  check('one that says nothing', said('OrgviewsTodo'):find('it stopped answering') ~= nil)
  Engine.patience = 20000
  vim.g.orgviews_command = { program }
  vim.cmd('silent! %bwipeout!')
end)

run('a thousand rows', function()
  local many = {}
  for number = 1, 1000 do
    table.insert(many, ('* TODO Task %d 予定\nSCHEDULED: <2024-02-28 Wed>\n'):format(number))
  end
  local path = write('many.org', table.concat(many))
  local start = vim.loop.hrtime()
  vim.cmd('OrgviewsAgenda 2024-02-28')
  local asked = (vim.loop.hrtime() - start) / 1e6
  check('rows', #view_lines() > 1000, #view_lines())
  vim.fn.search('Task 900 ')
  start = vim.loop.hrtime()
  orgviews.go()
  local went = (vim.loop.hrtime() - start) / 1e6
  equal('the 900th', api.nvim_get_current_line(), '* TODO Task 900 予定')
  start = vim.loop.hrtime()
  api.nvim_set_current_line('* TODO Aufgabe 900 予定')
  orgviews.engine_text(path)
  local sent = (vim.loop.hrtime() - start) / 1e6
  local times = 'a thousand rows: first view %.0f ms, to the heading %.1f ms, an edit and its text %.1f ms'
  table.insert(lines, times:format(asked, went, sent))
  vim.cmd('wincmd p')
  vim.wait(5000, function()
    return vim.fn.search('Aufgabe 900 ', 'nw') > 0
  end)
  check('follows', vim.fn.search('Aufgabe 900 ', 'nw') > 0)
  vim.fn.delete(path)
  vim.cmd('silent! %bwipeout!')
end)

run('equal headings, completed', function()
  local twice = write('twice.org', '* TODO Call Bob\n* TODO Call Bob\nSCHEDULED: <2024-02-20 Tue +1w>\n')
  vim.cmd('OrgviewsTodo')
  vim.fn.search('Call Bob')
  vim.fn.search('Call Bob')
  orgviews.go()
  equal('the second goes to the second', { api.nvim_win_get_cursor(0)[1], vim.fn.expand('%:t') }, { 2, 'twice.org' })
  local buffer = api.nvim_get_current_buf()
  vim.cmd('wincmd p')
  local sent = sent_by(function()
    press('t')
  end)
  equal('no text is fetched for it', { sent.complete, sent.text, sent.edit }, { 1, nil, nil })
  equal('it is completed, shifted and not saved', { api.nvim_buf_get_lines(buffer, 0, -1, true), vim.bo[buffer].modified }, {
    { '* TODO Call Bob', '* TODO Call Bob', 'SCHEDULED: <2024-02-27 Tue +1w>' },
    true,
  })
  sent = sent_by(function()
    equal('the engine has it', orgviews.engine_text(twice), buffer_text(buffer))
  end)
  equal('and is not sent it', sent.edit, nil)
  api.nvim_buf_call(buffer, function()
    vim.cmd('silent undo')
  end)
  equal('undone', api.nvim_buf_get_lines(buffer, 2, 3, true), { 'SCHEDULED: <2024-02-20 Tue +1w>' })
  equal('there too', orgviews.engine_text(twice), buffer_text(buffer))
  vim.cmd('bwipeout! twice.org')
  vim.cmd('silent! only')
  vim.fn.delete(twice)
end)

run('the cursor stays with its heading', function()
  local path = write('same.org', ('* TODO Same\n'):rep(3) .. '* TODO Zuletzt\n')
  vim.cmd('OrgviewsMatch ITEM={Same|Zul}')
  api.nvim_win_set_cursor(0, { 2, 0 })
  press('t')
  vim.wait(2000, function()
    return view_lines()[2]:find('DONE') ~= nil
  end)
  equal('the second is done, and the cursor there', { view_lines()[2]:match('DONE'), api.nvim_win_get_cursor(0)[1] }, { 'DONE', 2 })
  -- A heading that leaves the list: the cursor stays in its row, and doesn't go to an equal one.
  vim.cmd('only')
  vim.cmd('OrgviewsMatch ITEM={Same|Zul}/TODO')
  api.nvim_win_set_cursor(0, { 2, 0 })
  press('t')
  vim.wait(2000, function()
    return #view_lines() == 2
  end)
  equal('one is gone, and the cursor is where it was', { #view_lines(), api.nvim_win_get_cursor(0)[1] }, { 2, 2 })
  equal('the first is open', api.nvim_buf_get_lines(vim.fn.bufnr(path), 0, -1, true),
    { '* TODO Same', '* DONE Same', '* DONE Same', '* TODO Zuletzt' })
  vim.cmd('silent! only')
  vim.cmd('bwipeout! same.org')
  vim.fn.delete(path)
end)

-- A view of the headings `Call`, `count` of them, that nothing asks anew by itself; its buffer, and that of the file.
local function calls(count)
  local path = write('calls.org', ('* TODO Call\n'):rep(count))
  vim.cmd('edit ' .. vim.fn.fnameescape(path))
  local buffer = api.nvim_get_current_buf()
  vim.cmd('only')
  vim.cmd('OrgviewsMatch ITEM={^Call}')
  equal('rows', #view_lines(), count)
  return buffer, path
end

-- The lines of a buffer, and whether the engine has them.
local function state(buffer, path)
  return { api.nvim_buf_get_lines(buffer, 0, -1, true), orgviews.engine_text(path) == buffer_text(buffer) }
end

local function at_row(row)
  api.nvim_win_set_cursor(0, { row, 0 })
end

run('rows of older texts', function()
  local buffer, path = calls(3)
  -- What only moved is acted on at once, by the row that was asked for.
  api.nvim_buf_set_lines(buffer, 0, 0, true, { 'Before é', '* TODO Call first' })
  api.nvim_buf_set_lines(buffer, 3, 3, true, { 'Between' })
  at_row(2)
  press('t')
  equal('a heading that moved', state(buffer, path), {
    { 'Before é', '* TODO Call first', '* TODO Call', 'Between', '* DONE Call', '* TODO Call' },
    true,
  })
  orgviews.again()
  -- A heading that was edited since: nothing is touched.
  api.nvim_buf_set_lines(buffer, 1, 2, true, { '* TODO Call last' })
  local before = state(buffer, path)
  vim.fn.search('Call first')
  check('a heading that was edited', said_by('t'):find('this row has changed; look at what is shown now') ~= nil)
  equal('nothing is touched', state(buffer, path), before)
  vim.fn.search('Call last')
  press('t')
  equal('the new row is acted on', api.nvim_buf_get_lines(buffer, 1, 2, true), { '* DONE Call last' })
  vim.cmd('bwipeout! calls.org')
  -- Equal rows, of which one is gone: which one was meant only the person knows.
  buffer, path = calls(3)
  api.nvim_buf_set_lines(buffer, 0, 1, true, {})
  at_row(1)
  check('of several that read so', said_by('t'):find('2 rows read as it did: choose one again') ~= nil)
  check('no jump either', #view_lines() == 2)
  equal('nothing is touched there', state(buffer, path), { { '* TODO Call', '* TODO Call' }, true })
  at_row(2)
  press('t')
  equal('the one that was chosen', state(buffer, path), { { '* TODO Call', '* DONE Call' }, true })
  -- The text of a heading becomes that of another one that stood there.
  vim.cmd('bwipeout! calls.org')
  buffer, path = calls(1)
  api.nvim_buf_set_lines(buffer, 0, 1, true, { '* TODO Call', '* TODO Another' })
  at_row(1)
  api.nvim_buf_set_text(buffer, 0, 0, 1, 0, {})
  check('gone', said_by('t'):find('this row has changed') ~= nil)
  equal('and another one stays', state(buffer, path), { { '* TODO Another' }, true })
  vim.cmd('bwipeout! calls.org')
  vim.fn.delete(path)
  vim.cmd('silent! only')
end)

run('a place is followed through edits', function()
  local headings = {}
  for number = 100, 199 do
    table.insert(headings, '* TODO ' .. number)
  end
  local path = write('many.org', table.concat(headings, '\n') .. '\n')
  vim.cmd('edit ' .. vim.fn.fnameescape(path))
  local buffer = api.nvim_get_current_buf()
  vim.cmd('OrgviewsTodo')
  vim.cmd('wincmd p')
  local space = api.nvim_create_namespace('orgviews tests')
  math.randomseed(7)
  local followed, wrong = 0, 0
  for _ = 1, 40 do
    orgviews.engine_text(path)
    local file, marks = file_of(path), {}
    local serial = file.serial
    for row, line in ipairs(api.nvim_buf_get_lines(buffer, 0, -1, true)) do
      if line:find('^%* ') then
        local mark = api.nvim_buf_set_extmark(buffer, space, row - 1, 0, {})
        marks[mark] = { serial = serial, byte = api.nvim_buf_get_offset(buffer, row - 1), line = row, text = line }
      end
    end
    for _ = 1, math.random(3) do
      local row = math.random(api.nvim_buf_line_count(buffer)) - 1
      local line = api.nvim_buf_get_lines(buffer, row, row + 1, true)[1]
      if math.random(2) == 1 then
        local at = vim.fn.byteidx(line, math.random(0, vim.fn.strchars(line)))
        api.nvim_buf_set_text(buffer, row, at, row, at, { 'é', '* TODO new' })
      else
        api.nvim_buf_set_lines(buffer, row, row + math.random(2), false, {})
      end
      orgviews.engine_text(path)
    end
    for mark, place in pairs(marks) do
      local number = Places.heading_now(file, place)
      if number then
        followed = followed + 1
        local row = api.nvim_buf_get_extmark_by_id(buffer, space, mark, {})[1]
        local line = api.nvim_buf_get_lines(buffer, number - 1, number, true)[1]
        -- A mark at the front of a line goes along with what is put there.
        wrong = wrong + ((line == place.text and row == number - 1) and 0 or 1)
      end
    end
    api.nvim_buf_clear_namespace(buffer, space, 0, -1)
  end
  check('most are followed', followed > 3000, followed)
  equal('to their own lines', wrong, 0)
  vim.cmd('bwipeout! many.org')
  vim.fn.delete(path)
  vim.cmd('silent! only')
end)

run('places die with their engine', function()
  local buffer, path = calls(2)
  api.nvim_buf_set_lines(buffer, 0, 0, true, { 'Before' })
  orgviews.again()
  local engine = orgviews.running()
  engine.handle:kill('sigkill')
  vim.wait(5000, function()
    return not orgviews.running()
  end)
  -- Its successor counts serials from 1 again, so the old place would look like one of the present text.
  api.nvim_buf_set_lines(buffer, 0, 1, true, {})
  at_row(2)
  check('it was started anew', said_by('t'):find('started anew; 2 rows read as it did: choose one again') ~= nil)
  equal('nothing is touched', state(buffer, path), { { '* TODO Call', '* TODO Call' }, true })
  at_row(2)
  press('t')
  equal('then it acts', state(buffer, path), { { '* TODO Call', '* DONE Call' }, true })
  orgviews.stop()
  press('<CR>')
  check('stopped by hand, too', vim.fn.execute('messages'):find('started anew; look at what is shown now') ~= nil)
  -- Another session's drop: the file comes again, and its old places aren't known.
  orgviews.running():ask('drop ' .. file_of(path).name)
  api.nvim_buf_set_lines(buffer, 0, 0, true, { 'Changed' })
  at_row(1)
  check('dropped by another', said_by('t'):find('this row has changed') ~= nil)
  equal('and nothing is lost', state(buffer, path), { { 'Changed', '* TODO Call', '* DONE Call' }, true })
  at_row(1)
  press('t')
  equal('it acts again', state(buffer, path), { { 'Changed', '* DONE Call', '* DONE Call' }, true })
  -- So isn't a place of a text that another session dropped, where another heading stands at the same byte.
  api.nvim_buf_set_lines(buffer, 0, -1, true, { '* TODO Call', '* DONE Call' })
  orgviews.again()
  orgviews.running():ask('drop ' .. file_of(path).name)
  api.nvim_buf_set_lines(buffer, 0, 1, true, { '* TODO Mail' })
  at_row(1)
  check('another heading at that byte', said_by('t'):find('this row has changed') ~= nil)
  equal('is not completed', state(buffer, path), { { '* TODO Mail', '* DONE Call' }, true })
  api.nvim_buf_set_lines(buffer, 0, -1, true, { 'Changed', '* DONE Call', '* DONE Call' })
  orgviews.again()
  -- Another session's edit.
  local file = file_of(path)
  orgviews.again()
  local reply = orgviews.running():ask(('edit 2 %s %d 0 0 4'):format(file.name, file.serial), '* X\n')
  check('edited by another', reply.ok ~= nil, reply)
  at_row(1)
  local answer = said_by('t')
  check('is refused as stale', answer:find('another session changed this file; 2 rows read as it did') ~= nil, answer)
  equal('the text stays', state(buffer, path), { { 'Changed', '* DONE Call', '* DONE Call' }, true })
  vim.cmd('bwipeout! calls.org')
  vim.fn.delete(path)
  vim.cmd('silent! only')
end)

run('places die also where another view started the next engine', function()
  local buffer, path = calls(3)
  api.nvim_buf_set_lines(buffer, 0, 0, true, { '* TODO Call x' })
  orgviews.again()
  api.nvim_buf_set_lines(buffer, 0, 1, true, {})
  orgviews.again()
  local window = api.nvim_get_current_win()
  local rows = view_lines()
  orgviews.running().handle:kill('sigkill')
  vim.wait(5000, function()
    return not orgviews.running()
  end)
  api.nvim_buf_set_lines(buffer, 0, 0, true, { '* TODO Call 2', '* TODO Call 3' })
  vim.cmd('tabnew | OrgviewsAgenda')
  vim.cmd('tabclose')
  api.nvim_set_current_win(window)
  equal('the rows are the old ones', view_lines(), rows)
  at_row(1)
  check('their places are gone', said_by('t'):find('started anew; 3 rows read as it did') ~= nil)
  local lines_now = { '* TODO Call 2', '* TODO Call 3', '* TODO Call', '* TODO Call', '* TODO Call' }
  equal('nothing is touched', state(buffer, path), { lines_now, true })
  -- A text that the engine refuses: it has the old one, whose rows are shown, and nothing acts there.
  api.nvim_buf_set_lines(buffer, 4, 5, true, { '\255' })
  at_row(1)
  check('a text that is refused', said_by('t'):find('this row has changed') ~= nil)
  api.nvim_buf_set_lines(buffer, 4, 5, true, { '* TODO Call' })
  equal('nothing is touched there', state(buffer, path), { lines_now, true })
  vim.cmd('bwipeout! calls.org')
  -- A buffer that is loaded, and changed before anybody asks.
  vim.cmd('OrgviewsMatch ITEM={^Call}')
  vim.cmd('only')
  buffer = vim.fn.bufadd(path)
  vim.fn.bufload(buffer)
  api.nvim_buf_set_lines(buffer, 0, 1, true, { '* TODO Mail' })
  equal('its text is sent, of the same length as it is', state(buffer, path)[2], true)
  vim.cmd('bwipeout! calls.org')
  vim.fn.delete(path)
  vim.cmd('silent! only')
end)

run('a buffer that changes while a heading is completed', function()
  local buffer, path = calls(1)
  local engine = orgviews.running()
  engine.ask = function(self, line, payload)
    local reply = getmetatable(self).ask(self, line, payload)
    if line:find('^complete') then
      api.nvim_buf_set_lines(buffer, 1, 1, true, { 'typed' })
    end
    return reply
  end
  check('it is said', said_by('t'):find('nothing is completed') ~= nil)
  engine.ask = nil
  equal('the buffer stays', state(buffer, path), { { '* TODO Call', 'typed' }, true })
  orgviews.again()
  check('a wrong keyword', said('OrgviewsComplete NOPE'):find('no keyword of .*NOPE') ~= nil)
  equal('and stays', state(buffer, path), { { '* TODO Call', 'typed' }, true })
  vim.cmd('bwipeout! calls.org')
  vim.fn.delete(path)
  vim.cmd('silent! only')
end)

run('a visit sends nothing', function()
  local texts = { ['dos.org'] = '* TODO One\r\n* TODO Zwei ü\r\n', ['bare.org'] = '* TODO No end',
    ['mark.org'] = '\239\187\191* TODO Mark\n', ['plain.org'] = '* TODO Plain\r\nmixed\n' }
  for name, text in pairs(texts) do
    local path = write(name, text)
    vim.cmd('OrgviewsTodo')
    vim.fn.search(vim.fn.fnamemodify(name, ':r') .. ':')
    local title = api.nvim_get_current_line():match('TODO (%S+)')
    local sent = sent_by(function()
      press('<CR>')
      vim.cmd('wincmd p')
      press('<CR>')
    end)
    equal(name .. ' leads to its heading', api.nvim_get_current_line():match('TODO (%S+)'), title)
    equal(name .. ' is not sent again', { sent.edit, sent.text }, {})
    equal(name .. ' is what the engine has', orgviews.engine_text(path), buffer_text(0))
    vim.cmd('wincmd p')
    equal(name .. ' is completed without a word', said_by('t'), '')
    vim.cmd('wincmd p')
    check(name .. ' is completed', vim.fn.search('^\\* DONE ' .. title, 'cnw') > 0, api.nvim_buf_get_lines(0, 0, -1, true))
    vim.cmd('bwipeout!')
    vim.fn.delete(path)
    vim.cmd('silent! only')
  end
end)

run('rows of files, filters, completion', function()
  write('home.org', '#+FILETAGS: :home:\n* TODO Rent :flat:\nSCHEDULED: <2024-02-28 Wed>\n* Fair <2024-02-28 Wed>\n')
  vim.cmd('OrgviewsClock 2024-02-27')
  local row = vim.fn.search('my\194\160notes.org$')
  check('a file of the table', row > 0, view_lines())
  check('is no heading', said_by('t'):find("a file's, not a heading's") ~= nil)
  press('<CR>')
  equal('but leads to its front', { vim.fn.expand('%:t'), vim.fn.line('.') }, { 'my notes.org', 1 })
  vim.cmd('only')
  vim.cmd('OrgviewsAgenda 2024-02-28')
  local all = #view_lines()
  check('filter command', vim.fn.exists(':OrgviewsFilter') == 2)
  vim.cmd('OrgviewsFilter flat')
  equal('filtered', view_lines(), { '2024-02-28 Wed W09', '  home:                   Scheduled: TODO Rent :home:flat:' })
  at_row(2)
  press('<CR>')
  equal('rows lead on', api.nvim_get_current_line(), '* TODO Rent :flat:')
  vim.cmd('wincmd p')
  press('R')
  equal('and again', #view_lines(), 2)
  check('no filter', said('OrgviewsFilter a b'):find('no expression: a > b') ~= nil)
  equal('the view stays', #view_lines(), 2)
  vim.cmd('OrgviewsFilter')
  equal('all rows', #view_lines(), all)
  vim.cmd('only')
  vim.cmd('OrgviewsClock 2024-02-27')
  vim.cmd('OrgviewsFilter ITEM={Below it}')
  equal('tables count what matches', view_lines()[2], '0:30     *')
  equal('keywords', vim.fn['orgviews#complete_todo']('', 'OrgviewsTodo ', 13), { 'TODO', 'DONE', 'NEXT' })
  equal('the rest of them', vim.fn['orgviews#complete_todo']('', 'OrgviewsTodo TODO ', 18), { 'DONE', 'NEXT' })
  vim.fn.search('Caf')
  equal('those of the file', vim.fn['orgviews#complete_keyword']('', '', 0), { 'TODO', 'NEXT', 'DONE' })
  equal('tags', vim.fn['orgviews#complete_match']('home-f', 'OrgviewsMatch home-f', 20), { 'home-flat' })
  equal('keywords after a slash', vim.fn['orgviews#complete_match']('home/N', 'OrgviewsMatch home/N', 20), { 'home/NEXT' })
  equal('blocks', vim.fn['orgviews#complete_clock']('last', 'OrgviewsClock last', 18), { 'lastweek', 'lastmonth', 'lastyear' })
  vim.cmd('only')
end)

run('paths that are odd', function()
  vim.fn.system({ 'ln', '-s', folder .. '/loop.org', folder .. '/loop.org' })
  vim.g.orgq_files = { folder, '/no/such/folder/', folder .. '/gone.org' }
  local message = said('OrgviewsTodo')
  check('a link to itself takes no other along', #view_lines() > 2, view_lines())
  check('it is told of', message:find('loop.org') ~= nil and message:find('gone.org') ~= nil, message)
  vim.fn.delete(folder .. '/loop.org')
  vim.g.orgq_files = { '/no/such/folder/' }
  check('nothing at all', said('OrgviewsTodo'):find('left out: /no/such/folder') ~= nil)
  local signs = write('a[b]{c}*$HOME`touch x`.org', '* TODO Signs\n')
  vim.g.orgq_files = { signs }
  vim.cmd('OrgviewsTodo')
  equal('a path is what it says', #view_lines(), 1)
  press('<CR>')
  equal('and leads to its heading', api.nvim_get_current_line(), '* TODO Signs')
  vim.fn.delete(signs)
  vim.g.orgq_files = { folder }
  local odd = write('caf\233 \1.org', '* TODO Odd\n')
  vim.cmd('OrgviewsTodo')
  local found = vim.fn.search('TODO Odd')
  check('a name that is no UTF-8', found > 0, view_lines())
  press('<CR>')
  equal('leads to its heading', api.nvim_get_current_line(), '* TODO Odd')
  vim.fn.delete(odd)
  vim.cmd('silent! %bwipeout!')
end)

run('settings of orgq', function()
  local path = write('conf.org', '* WAIT one\n* TODO two\n:PROPERTIES:\n:owner: ann\n:END:\n** DONE below\n')
  local config = folder .. '/settings/orgq/config'
  vim.fn.mkdir(folder .. '/settings/orgq', 'p')
  vim.env.XDG_CONFIG_HOME, vim.g.orgq_files = folder .. '/settings', nil
  local function settings(lines)
    vim.fn.writefile(lines, config)
  end
  -- The rows of a question, which have to be those of orgq.
  local function rows(question)
    vim.cmd('silent! only')
    vim.cmd('silent Orgq' .. question)
    local of_orgq = vim.tbl_map(function(item)
      return item.text
    end, vim.fn.getqflist())
    vim.cmd('cclose')
    vim.cmd('Orgviews' .. question)
    equal('rows beside orgq, ' .. question, view_lines(), #of_orgq > 0 and of_orgq or { '' })
    return view_lines()
  end
  settings({ 'file ' .. path, 'keywords TODO WAIT | DONE', 'inherit owner' })
  equal('files and keywords', rows('Todo'), { '  conf:       WAIT one', '  conf:       TODO two' })
  equal('names to inherit', #rows('Match owner="ann"'), 2)
  equal('keywords are completed', vim.fn['orgviews#complete_todo']('', 'OrgviewsTodo ', 13), { 'TODO', 'WAIT', 'DONE' })
  vim.cmd('only')
  vim.cmd('edit ' .. vim.fn.fnameescape(path))
  local buffer, tail = api.nvim_get_current_buf(), '#+TODO: TODO WAIT | DONE\n'
  -- What the engine has is the text of the buffer, with the keywords behind it where it names none.
  local function engine_has(name, behind)
    equal(name, orgviews.engine_text(path), buffer_text(buffer) .. behind)
  end
  engine_has('the keywords stand behind the text', tail)
  api.nvim_buf_set_lines(buffer, 1, 1, false, { '* WAIT é' })
  engine_has('and stay there', tail)
  api.nvim_buf_set_lines(buffer, 0, 0, false, { '#+todo: X | Y' })
  engine_has('its own count', '')
  api.nvim_buf_set_lines(buffer, 0, 0, false, { '#+begin_src', '#+end_src' })
  engine_has('behind a block too', '')
  api.nvim_buf_set_lines(buffer, 1, 3, false, { '#+TODO: X | Y', '#+END_SRC' })
  engine_has('in a block they count not', tail)
  api.nvim_buf_set_lines(buffer, 0, 1, false, {})
  engine_has('without its front they do', '')
  api.nvim_buf_set_lines(buffer, 0, 1, false, { '#+TODO: |' })
  engine_has('a bar is none', tail)
  api.nvim_buf_set_lines(buffer, 0, 2, false, {})
  engine_has('none again', tail)
  vim.cmd('OrgviewsTodo')
  equal('rows of all that', view_lines(), { '  conf:       WAIT one', '  conf:       WAIT é', '  conf:       TODO two' })
  vim.cmd('silent! bwipeout! ' .. buffer)
  settings({ '# other', 'file ' .. path, 'keywords TODO | DONE' })
  equal('other settings count at the next question', rows('Todo'), { '  conf:       TODO two' })
  equal('nothing is inherited any more', #rows('Match owner="ann"'), 1)
  vim.g.orgq_options = { '--keywords', 'WAIT | TODO DONE' }
  equal('options count before them', rows('Todo'), { '  conf:       WAIT one' })
  vim.g.orgq_options = nil
  vim.env.ORGQ_FILES = home
  equal('so does the environment', rows('Todo'), { '  home:       TODO Rent :home:flat:' })
  vim.env.ORGQ_FILES = nil
  settings({ 'nonsense x' })
  check('what orgq refuses is told', said('OrgviewsTodo'):find('config:1') ~= nil)
  vim.fn.delete(config)
  vim.fn.writefile({ '# the list', path }, folder .. '/settings/orgq/files')
  equal('the list of files', rows('Todo'), { '  conf:       TODO two' })
  vim.g.orgq_command = { '/no/such/program' }
  vim.cmd('OrgviewsTodo')
  equal('without orgq too', view_lines(), { '  conf:       TODO two' })
  vim.g.orgq_command, vim.g.orgq_files = { vim.env.ORGQ }, { folder }
  vim.env.XDG_CONFIG_HOME = folder .. '/no settings'
  vim.fn.delete(path)
  vim.cmd('silent! only')
end)

run('differences', function()
  equal('of equal texts', { Bytes.difference('aé', 'aé') }, { 3, 0, 0 })
  equal('at characters', { Bytes.difference('aéb', 'aèb') }, { 1, 2, 2 })
  equal('of what is added', { Bytes.difference('éé', 'ééé') }, { 4, 0, 2 })
  equal('of nothing', { Bytes.difference('', 'x') }, { 0, 0, 1 })
  equal('ranges that meet', Texts.widen({ from = 5, old = 2, new = 4 }, 3, 4, 1), { from = 3, old = 4, new = 3 })
  equal('ranges apart', Texts.widen({ from = 5, old = 0, new = 3 }, 20, 2, 2), { from = 5, old = 14, new = 17 })
end)

vim.fn.delete(folder, 'rf')
table.insert(lines, ('%d passed, %d failed'):format(passed, failed))
io.stdout:write(table.concat(lines, '\n'), '\n')
vim.cmd(failed > 0 and 'cquit!' or 'qall!')
