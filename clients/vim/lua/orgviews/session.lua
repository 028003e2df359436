-- One engine, its texts, and questions to it.
-- SPDX-License-Identifier: Apache-2.0 OR MIT

local Engine = require('orgviews.engine')
local Paths = require('orgviews.paths')
local Texts = require('orgviews.texts')

local Session = {}
Session.__index = Session

-- The moment at which questions are asked.
local function moment()
  return vim.g.orgviews_at or os.date('%Y-%m-%d %H:%M')
end

local function too_old(command)
  return command .. " doesn't speak the second protocol: a later orgviews is needed"
end

-- Whether `reply` to `version` is that of a program that speaks the second protocol.
local function is_known(reply)
  local protocol = reply.view and reply.view:match('^%S+ %S+ (%d+)\n$')
  return protocol ~= nil and tonumber(protocol) >= 2
end

-- Starts the program. `on_change()` is called whenever a text changes, `on_end(session, reason)` when the program has ended by
-- itself. Nil, and why, where it isn't there, ends at once or is too old.
function Session.start(on_change, on_end)
  local command = vim.g.orgviews_command or { 'orgviews' }
  command = type(command) == 'table' and vim.deepcopy(command) or { command }
  if vim.fn.executable(command[1]) == 0 then
    return nil, 'there is no program ' .. command[1] .. ' (see g:orgviews_command)'
  end
  local self = setmetatable({ told = moment() }, Session)
  vim.list_extend(command, { '--protocol', '2', '--at', self.told, '--idle', '100' })
  local engine, why = Engine.start(command, function(reason)
    if self.texts and not self.is_stopped then
      on_end(self, reason)
    end
  end)
  if not engine then
    return nil, why
  end
  local reply = engine:ask('version')
  if not is_known(reply) then
    engine:stop()
    local is_old = reply.err or reply.view or (reply.ended or ''):find('--protocol', 1, true)
    return nil, is_old and too_old(command[1]) or reply.ended or 'it answers as no orgviews does'
  end
  self.engine, self.version = engine, vim.trim(reply.view)
  local profile = Paths.settings().profile
  if profile then
    engine:send('profile ' .. profile, nil, function() end)
  end
  self.texts = Texts.new(engine, on_change)
  return self
end

function Session:is_over()
  return self.engine.ended ~= nil
end

function Session:stop()
  self.is_stopped = true
  self.texts:stop()
  self.engine:stop()
end

-- Brings the engine to the present texts, and waits for it. False where the wait was broken off.
function Session:settle()
  local is_settled = false
  self.texts:settle(function()
    is_settled = true
  end)
  return self.engine:wait(function()
    return is_settled
  end)
end

-- Asking -------------------------------------------------------------------------------------------------------------------

-- The lines of a view; nothing stands after the last line feed.
local function lines_of(text)
  local lines = vim.split(text, '\n', { plain = true })
  if lines[#lines] == '' then
    table.remove(lines)
  end
  return lines
end

-- What is equal for two places of one heading: all but the stamp.
local function key(place)
  return (place:gsub(' %S+$', ''))
end

-- The lines and places without those whose headings aren't among the places `held`. What is no heading's stays.
local function filter_lines(answer, held)
  local keys, kept = {}, { lines = {}, places = {} }
  for _, place in ipairs(held) do
    keys[key(place)] = true
  end
  for row, place in ipairs(answer.places) do
    if place == '' or keys[key(place)] then
      table.insert(kept.lines, answer.lines[row])
      table.insert(kept.places, place)
    end
  end
  return kept
end

-- What `replies` to `commands` say: `lines` and `places`, or what was `refused` and its `reply`.
local function answer_of(commands, replies)
  for number, reply in ipairs(replies) do
    if not reply.view then
      return { refused = commands[number], reply = reply }
    end
  end
  local answer = { lines = lines_of(replies[1].view), places = lines_of(replies[2].view) }
  if #answer.lines ~= #answer.places then
    return { refused = commands[2], reply = { ended = "the program's places don't fit its view" } }
  end
  return replies[3] and filter_lines(answer, lines_of(replies[3].view)) or answer
end

-- The commands that ask `question`, of the headings alone of which the expression `filter` holds, where it is one. Tables take it
-- as an option, since they count hidden headings, which lists leave out.
local function commands_of(question, filter)
  local is_table = question:find('^clock ') ~= nil
  if filter and is_table then
    question = question .. ' match=' .. filter
  end
  local commands = { question, 'places ' .. question }
  if filter and not is_table then
    table.insert(commands, 'places match ' .. filter)
  end
  return commands
end

-- Sends `commands` right after one another, so that line k of the places belongs to line k of the view; calls `done` with all
-- replies.
local function send_all(engine, commands, done)
  local replies, left = {}, #commands
  for number, command in ipairs(commands) do
    engine:send(command, nil, function(reply)
      replies[number] = reply
      left = left - 1
      if left == 0 then
        done(replies)
      end
    end)
  end
end

-- Asks `question` of the texts as they stand, with `filter`; calls `done` with the answer.
function Session:ask(question, filter, done)
  local commands = commands_of(question, filter)
  self.texts:settle(function()
    if self.told ~= moment() then
      self.told = moment()
      self.engine:send('at ' .. self.told, nil, function() end)
    end
    local inherit = table.concat(vim.list_extend({ 'inherit' }, Paths.settings().inherit), ' ')
    if self.inherit ~= inherit then
      self.inherit = inherit
      self.engine:send(inherit, nil, function() end)
    end
    send_all(self.engine, commands, function(replies)
      done(answer_of(commands, replies))
    end)
  end)
end

-- The same, waiting for the answer.
function Session:ask_now(question, filter)
  local answer
  self:ask(question, filter, function(it)
    answer = it
  end)
  self.engine:wait(function()
    return answer ~= nil
  end)
  return answer or { refused = question, reply = { ended = 'broken off' } }
end

-- The keywords of each of `files`, done ones after a bar, as lists of lists of words.
function Session:keywords(files)
  local commands = vim.tbl_map(function(file)
    return 'keywords ' .. file.name
  end, files)
  local sequences = {}
  if #commands == 0 then
    return sequences
  end
  local replies
  send_all(self.engine, commands, function(them)
    replies = them
  end)
  self.engine:wait(function()
    return replies ~= nil
  end)
  for _, reply in ipairs(replies or {}) do
    for _, line in ipairs(lines_of(reply.view or '')) do
      table.insert(sequences, vim.split(line, ' ', { trimempty = true }))
    end
  end
  return sequences
end

Session.moment = moment

return Session
