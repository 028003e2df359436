-- Agendas, lists and clock tables over the program orgviews, which knows unsaved buffers. See :help orgviews.
-- SPDX-License-Identifier: Apache-2.0 OR MIT

local uv = vim.uv or vim.loop
local api = vim.api
local Places = require('orgviews.places')
local Questions = require('orgviews.questions')
local Session = require('orgviews.session')
local Texts = require('orgviews.texts')
local View = require('orgviews.view')

local M = {}

-- The session, nil while no program runs, and the views, by their buffers.
local session
local views = {}
local timer = uv.new_timer()

-- Milliseconds without a change before views are asked anew.
local pause = 100

local function say(message, group)
  api.nvim_echo({ { 'orgviews: ' .. message, group or 'None' } }, true, {})
end

local function complain(message)
  say(message, 'ErrorMsg')
end

-- Starting and stopping ----------------------------------------------------------------------------------------------------

-- No row is where it was: another program counts its serials from 1 again.
local function forget_places()
  for _, view in pairs(views) do
    view:forget_places()
  end
end

local function on_end(ended, reason)
  if ended == session then
    session = nil
    forget_places()
  end
  complain('the program ended (' .. reason .. '); the next question starts it anew')
end

-- Whether the program runs, after a message if it doesn't.
local function start()
  if session and not session:is_over() then
    return true
  end
  forget_places()
  local why
  session, why = Session.start(M.on_change, on_end)
  if not session then
    complain(why)
  end
  return session ~= nil
end

function M.stop()
  if session then
    session:stop()
    session = nil
    forget_places()
  end
end

-- Views --------------------------------------------------------------------------------------------------------------------

-- The answer to `question`, of the headings alone of which `filter` holds; nil after a message where there is none.
local function answer_of(question, filter)
  if not start() then
    return nil
  end
  local answer = session:ask_now(question, filter)
  if answer.refused then
    return complain(Questions.refusal(answer))
  end
  return answer
end

-- The view of the present buffer; nil after a message where there is none.
local function view_here()
  local view = views[api.nvim_get_current_buf()]
  if not view then
    say('this is no view')
  end
  return view
end

-- The byte at which the heading of a view's `place` begins now; nil where that isn't known.
local function follow(place)
  local file = session and session.texts:named(place.name)
  return file and (Places.byte_now(file, place.serial, place.byte)) or nil
end

local function fill(view, answer)
  view:fill(answer, follow)
end

local function show(title, question)
  local answer = answer_of(question())
  if not answer then
    return nil
  end
  local view = View.open(title)
  view.question = question
  views[view.buffer] = view
  fill(view, answer)
  local missing = session and session.texts:missing() or {}
  if #missing > 0 then
    say('left out: ' .. table.concat(missing, ', '), 'WarningMsg')
  elseif session and #session.texts.files == 0 then
    say('no files (see g:orgq_files)', 'WarningMsg')
  end
  return view
end

-- Asks each view that stands in a window anew.
function M.refresh()
  for buffer, view in pairs(views) do
    if not api.nvim_buf_is_valid(buffer) then
      views[buffer] = nil
    elseif #vim.fn.win_findbuf(buffer) > 0 and session then
      session:ask(view.question(), view.filter, function(answer)
        if not answer.refused and api.nvim_buf_is_valid(buffer) then
          fill(view, answer)
        end
      end)
    end
  end
end

-- Asks the view of the present buffer anew, and waits for it.
function M.again()
  local view = view_here()
  local answer = view and answer_of(view.question(), view.filter)
  if answer then
    fill(view, answer)
  end
end

-- A followed buffer has changed: views follow when nothing is typed for a moment.
function M.on_change()
  timer:start(pause, 0, vim.schedule_wrap(M.refresh))
end

-- The agenda of `words`: a number of days, the first day as YYYY-MM-DD, both or none. Without a day it begins today, also when
-- tomorrow has come.
function M.agenda(words)
  local span = Questions.span(words or {})
  local view = show(vim.trim('agenda ' .. span.days .. ' ' .. (span.date or '')), function()
    return ('agenda %s %s'):format(span.date or Session.moment():sub(1, 10), span.days)
  end)
  if view then
    view.span, view.filter = span, nil
  end
end

-- Shows the agenda that lies so many times its days ahead, or back; today's for 0.
function M.move(count)
  local view = view_here()
  local span = view and view.span
  if not span then
    return view and say('this is no agenda')
  end
  local before = span.date
  span.date = count ~= 0 and Questions.days_later(before or Session.moment(), count * tonumber(span.days)) or nil
  local answer = answer_of(view.question(), view.filter)
  if not answer then
    span.date = before
    return
  end
  fill(view, answer)
  api.nvim_win_set_cursor(0, { 1, 0 })
end

-- The open entries, or those with one of the keywords `words`.
function M.todo(words)
  local question = vim.trim('todo ' .. table.concat(words or {}, '|'))
  show(question, function()
    return question
  end)
end

-- The entries of which `expression` holds.
function M.match(expression)
  show('match ' .. expression, function()
    return 'match ' .. expression
  end)
end

-- A clock table. `words` is a block (thisweek) and options as orgq has them; what stands after --match is one expression.
function M.clock(words)
  local question = Questions.clock(words)
  show('clock ' .. words, function()
    return question
  end)
end

-- Shows the rows alone of whose headings `expression` holds; all of them where it is empty.
function M.filter(expression)
  local view = view_here()
  local filter = expression and expression ~= '' and expression or nil
  local answer = view and answer_of(view.question(), filter)
  if answer then
    view.filter = filter
    fill(view, answer)
  end
end

-- From a row to its heading --------------------------------------------------------------------------------------------------

-- Asks the view anew and says `why` nothing was done with `row`, and what to do: of several rows that read as it did nobody but
-- the person can tell which was meant.
local function look_again(view, row, why)
  local answer = answer_of(view.question(), view.filter)
  if not answer then
    return
  end
  fill(view, answer)
  local count = view:count(row)
  complain(why .. '; ' .. (count > 1 and count .. ' rows read as it did: choose one again' or 'look at what is shown now'))
end

-- The file of the row under the cursor, and the line, from 1, on which its heading stands now; no line where the row is a
-- file's. Nil, after a message, where nothing stands there, or where the heading isn't what the row shows.
local function heading()
  local view = view_here()
  if not view then
    return nil
  end
  local row = api.nvim_get_current_line()
  if not (view.places and session and not session:is_over()) then
    return look_again(view, row, 'the program was started anew')
  end
  local place = view:place()
  if not place then
    return say('no heading stands on this line')
  end
  session:settle()
  local file = session and session.texts:named(place.name)
  if not file then
    return look_again(view, row, 'the file of this row is gone')
  end
  if not place.line then
    return file, nil
  end
  local line = Places.heading_now(file, place)
  if not line then
    return look_again(view, row, 'this row has changed')
  end
  return file, line
end

-- A window for a file: the one that was left last, if it shows an ordinary buffer, else a new one.
local function to_other_window()
  local own = api.nvim_get_current_win()
  vim.cmd('wincmd p')
  if api.nvim_get_current_win() == own or vim.bo.buftype ~= '' then
    api.nvim_set_current_win(own)
    vim.cmd('aboveleft split')
    vim.wo.wrap, vim.wo.cursorline = vim.go.wrap, vim.go.cursorline
  end
end

-- Goes to the heading of the row under the cursor, in another window; a mark leads back. True where it is there.
function M.go()
  local file, line = heading()
  if not file then
    return false
  end
  to_other_window()
  vim.cmd("normal! m'")
  local buffer = file.buffer or vim.fn.bufadd(file.path)
  vim.bo[buffer].buflisted = true
  api.nvim_win_set_buf(0, buffer)
  api.nvim_win_set_cursor(0, { math.min(line or 1, api.nvim_buf_line_count(0)), 0 })
  vim.cmd('normal! zvzz')
  return true
end

-- Shows the heading and stays in the view.
function M.peek()
  local own = api.nvim_get_current_win()
  if M.go() then
    api.nvim_set_current_win(own)
  end
end

-- The heading under the cursor, of a file that a buffer shows; it is loaded where none does.
local function heading_in_buffer()
  local file, line = heading()
  if not file then
    return nil
  end
  if not line then
    return complain("this row is a file's, not a heading's")
  end
  if not file.buffer then
    local buffer = vim.fn.bufadd(file.path)
    vim.fn.bufload(buffer)
    vim.bo[buffer].buflisted = true
    file, line = heading()
  end
  if file and not file.buffer then
    return complain(file.path .. " can't be loaded")
  end
  return file, line
end

-- Completes the heading of the row under the cursor with `keyword`, or DONE: the program shifts what repeats, and the change goes
-- into the file's buffer, to be looked at, undone or saved.
function M.complete(keyword)
  local file, line = heading_in_buffer()
  if not file then
    return
  end
  local view, row = view_here(), api.nvim_get_current_line()
  local reply = session.engine:ask(('complete 1 %s %d %d %s'):format(file.name, file.serial, line, keyword or 'DONE'))
  if reply.err == 'stale' or reply.err == 'unknown' then
    session.texts:refused(file, reply)
    return look_again(view, row, 'another session changed this file')
  end
  if reply.err == 'keyword' then
    return complain('no keyword of ' .. file.name .. ': ' .. (keyword or 'DONE') .. ' (:OrgviewsComplete KEYWORD)')
  end
  if not reply.ok then
    return complain(reply.err or reply.ended)
  end
  local ok, why = Texts.take_over(file, reply)
  if not ok then
    complain(why or 'the buffer has changed meanwhile; nothing is completed')
  end
  M.on_change()
end

-- Completion -----------------------------------------------------------------------------------------------------------------

-- All keywords of the files that are asked about; of the row's file alone where `is_here`.
function M.keywords(is_here)
  local mine = start() and session
  if not mine or not mine:settle() then
    return {}
  end
  local view = is_here and views[api.nvim_get_current_buf()]
  local place = view and view:place()
  local file = place and mine.texts:named(place.name)
  return Questions.words_of(mine:keywords(file and { file } or mine.texts.files))
end

-- All tags that headings have, inherited ones too.
function M.tags()
  local answer = start() and session:ask_now('match {.}') or {}
  return Questions.tags_of(answer.lines or {})
end

-- What runs --------------------------------------------------------------------------------------------------------------------

function M.status()
  if not session then
    return say('no program runs')
  end
  local follows = 0
  for _, file in ipairs(session.texts.files) do
    follows = follows + (file.buffer and 1 or 0)
  end
  say(('%s: %d files, %d of them in buffers'):format(session.version, #session.texts.files, follows))
  for _, line in ipairs(session.texts:missing()) do
    say('left out: ' .. line, 'WarningMsg')
  end
end

-- For tests: what the engine holds of a path, once all changes are sent.
function M.engine_text(path)
  session:settle()
  for _, file in ipairs(session.texts.files) do
    if file.path == path then
      return session.engine:ask('text ' .. file.name).view
    end
  end
end

-- For tests: the engine and its texts, nil where none runs.
function M.running()
  return session and session.engine, session and session.texts
end

local group = api.nvim_create_augroup('orgviews', {})
api.nvim_create_autocmd({ 'BufWritePost', 'FocusGained', 'BufReadPost', 'BufFilePost' }, {
  group = group,
  callback = function()
    if session and next(views) then
      M.on_change()
    end
  end,
})
api.nvim_create_autocmd('VimLeavePre', { group = group, callback = M.stop })

return M
