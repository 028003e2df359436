-- The program orgviews: commands go to its standard input, and one reply comes back for each, in their order.
-- SPDX-License-Identifier: Apache-2.0 OR MIT

local uv = vim.uv or vim.loop

local Engine = {}
Engine.__index = Engine

-- Milliseconds that a program has for its first reply, and for each next part of one that it has begun.
Engine.patience = 20000

-- A reply's first line is short. Bytes that are more than an editor shows aren't waited for: a broken program may announce any
-- number.
local longest_line = 4096
local most_bytes = 256 * 1024 * 1024

-- Starts `command`, a list of the program and its arguments. `on_end(reason)` is called once, when it has ended.
-- Gives the engine, or nil and why there is none.
function Engine.start(command, on_end)
  local self = setmetatable({ waiting = {}, first = 1, last = 0, chunks = {}, size = 0, errors = {} }, Engine)
  self.input, self.output, self.error = uv.new_pipe(false), uv.new_pipe(false), uv.new_pipe(false)
  self.on_end = on_end
  local handle, why = uv.spawn(command[1], {
    args = vim.list_slice(command, 2),
    stdio = { self.input, self.output, self.error },
  }, function(status)
    self:finish('it ended with status ' .. status)
  end)
  if not handle then
    self:close()
    return nil, why
  end
  self.handle = handle
  self.output:read_start(function(failure, data)
    if data then
      self:take(data)
    elseif failure then
      self:finish(failure)
    end
  end)
  self.error:read_start(function(_, data)
    table.insert(self.errors, data or '')
  end)
  return self
end

-- Sends a command and, where it has one, its payload. `on_reply` is called with the reply, a table with one of
--   ok = SERIAL, of a completed heading with at, del and bytes: what it changed
--   view = BYTES
--   err = NAME, with a number that stands after the name as `more`
--   ended = REASON
function Engine:send(line, payload, on_reply)
  if self.ended then
    local reason = self.ended
    vim.schedule(function()
      on_reply({ ended = reason })
    end)
    return
  end
  self.last = self.last + 1
  self.waiting[self.last] = on_reply
  self.input:write(payload and { line, '\n', payload } or { line, '\n' })
end

-- Whether the program has been silent too long within a reply, or before its first one.
function Engine:is_stalled()
  local is_within = self.awaited or self.size > 0 or not self.has_answered
  return is_within and uv.now() - self.heard > Engine.patience
end

-- Waits until `is_done()`; false after CTRL-C. What is typed meanwhile waits. A program that stalls is ended, and all who wait
-- for a reply are told.
function Engine:wait(is_done)
  self.heard = uv.now()
  while true do
    local ok, why = vim.wait(200, is_done, 1)
    if ok then
      return true
    end
    if why == -2 then
      return false
    end
    if not self.ended and self:is_stalled() then
      self:finish('it stopped answering')
    end
  end
end

-- Sends a command and waits for its reply. After CTRL-C the reply is `{ended = ..}`, and the true one is read when it comes.
function Engine:ask(line, payload)
  local answer
  self:send(line, payload, function(reply)
    answer = reply
  end)
  self:wait(function()
    return answer ~= nil
  end)
  return answer or { ended = 'broken off' }
end

-- Ends the program.
function Engine:stop()
  self:finish('stopped')
end

function Engine:close()
  for _, pipe in ipairs({ self.input, self.output, self.error }) do
    if not pipe:is_closing() then
      pipe:close()
    end
  end
  if self.handle and not self.handle:is_closing() then
    self.handle:kill('sigterm')
    self.handle:close()
  end
end

-- The engine has ended: all who wait for a reply are told.
function Engine:finish(reason)
  if self.ended then
    return
  end
  local said = vim.trim(table.concat(self.errors))
  self.ended = said ~= '' and said or reason
  self:close()
  for place = self.first, self.last do
    self:deliver(place, { ended = self.ended })
  end
  self.first = self.last + 1
  vim.schedule(function()
    self.on_end(self.ended)
  end)
end

function Engine:deliver(place, reply)
  local on_reply = self.waiting[place]
  self.waiting[place] = nil
  vim.schedule(function()
    on_reply(reply)
  end)
end

-- What the program wrote is kept in chunks, and put together when a line or a view is whole.
function Engine:take(data)
  table.insert(self.chunks, data)
  self.size = self.size + #data
  self.heard = uv.now()
  while not self.ended do
    local reply
    if self.awaited then
      reply = self:take_bytes()
    else
      reply = self:take_line()
    end
    if not reply then
      return
    end
    if self.first > self.last then
      return self:finish('a reply to no command')
    end
    self.has_answered = true
    self.first = self.first + 1
    self:deliver(self.first - 1, reply)
  end
end

-- The first `count` of the bytes that are there. The others are kept.
function Engine:cut(count, skip)
  local all = table.concat(self.chunks)
  local rest = all:sub(count + (skip or 0) + 1)
  self.chunks, self.size = { rest }, #rest
  return all:sub(1, count)
end

-- The reply whose bytes are awaited, once all of them are here.
function Engine:take_bytes()
  if self.size < self.awaited.count then
    return nil
  end
  local reply, member = self.awaited.reply, self.awaited.member
  reply[member] = self:cut(self.awaited.count)
  self.awaited = nil
  return reply
end

-- So many bytes as `digits` say follow, and are the `member` of `reply`.
function Engine:await(digits, reply, member)
  local count = tonumber(digits)
  if count > most_bytes then
    return self:finish(('%s bytes are more than Neovim takes: ask for fewer days or headings'):format(digits:sub(1, 20)))
  end
  self.awaited = { count = count, reply = reply, member = member }
  return self:take_bytes()
end

-- The reply of a line; nil where there is none yet, or where bytes follow.
function Engine:take_line()
  local all = table.concat(self.chunks)
  self.chunks = { all }
  local stop = all:find('\n', 1, true)
  if not stop then
    if #all > longest_line then
      self:finish('a reply without an end')
    end
    return nil
  end
  local line = self:cut(stop - 1, 1)
  local serial = line:match('^ok (%d+)$')
  if serial then
    return { ok = tonumber(serial) }
  end
  local number, name, more = line:match('^err (%d+) (%l[%w]*) ?(.*)$')
  if number then
    return { err = name, more = tonumber(more) }
  end
  local length = line:match('^view (%d+)$')
  if length then
    return self:await(length, {}, 'view')
  end
  local completed, at, del, len = line:match('^ok (%d+) (%d+) (%d+) (%d+)$')
  if completed then
    return self:await(len, { ok = tonumber(completed), at = tonumber(at), del = tonumber(del) }, 'bytes')
  end
  self:finish('a reply that is none: ' .. line:sub(1, 60))
  return nil
end

return Engine
