-- The texts that the engine holds: those of the wanted files, as they stand in Neovim's buffers, and on disk where none is
-- loaded. A buffer's changes are gathered as one range of bytes, and sent as one edit when a question is asked.
-- SPDX-License-Identifier: Apache-2.0 OR MIT

local uv = vim.uv or vim.loop
local api = vim.api
local Bytes = require('orgviews.bytes')
local Keywords = require('orgviews.keywords')
local Paths = require('orgviews.paths')

local Texts = {}
Texts.__index = Texts

local most_files = 256
local session = 1

-- How many edits of a file are remembered, by which a place in an older text is followed into the present one.
local most_edits = 1000

-- `engine` answers; `on_change()` is called whenever a followed buffer changes.
function Texts.new(engine, on_change)
  return setmetatable({ engine = engine, on_change = on_change, files = {}, by_name = {}, left_out = {}, tail = '' }, Texts)
end

-- Following a buffer -------------------------------------------------------------------------------------------------------

-- The range of a file that isn't sent yet: `old` bytes of the engine's text from `from` on stand as `new` bytes in the buffer.
-- A further change of `old` bytes at `from` widens it.
local function widen(damage, from, old, new)
  if not damage then
    return { from = from, old = old, new = new }
  end
  local start = math.min(damage.from, from)
  local stop = math.max(damage.from + damage.new, from + old)
  return {
    from = start,
    old = stop - start - (damage.new - damage.old),
    new = stop - start + (new - old),
  }
end

function Texts:follow(file, buffer)
  file.buffer = buffer
  api.nvim_buf_attach(buffer, false, {
    on_bytes = function(_, _, _, _, _, from, _, _, old, _, _, new)
      if file.buffer ~= buffer or self.ended then
        return true
      end
      if not file.is_applying then
        file.damage = widen(file.damage, from, old, new)
      end
      self.on_change()
    end,
    on_reload = function()
      file.is_lost = true
      self.on_change()
    end,
    on_detach = function()
      if file.buffer == buffer then
        file.buffer, file.damage, file.is_lost = nil, nil, true
        self.on_change()
      end
    end,
  })
end

-- What the file holds now; nil where it can't be read.
local function text_of(file)
  if file.buffer then
    return Bytes.of_buffer(file.buffer)
  end
  return Bytes.on_disk(file.path)
end

-- What the engine is to have of the text of a file: behind a text that names no keywords stands `tail`, a line that does.
function Texts:with_tail(file, text)
  file.named = self.tail ~= '' and Keywords.named_by(Keywords.lines_of(text)) or nil
  file.tail = file.named == 'own' and '' or self.tail
  return text .. file.tail
end

-- Whether the text of a buffer names keywords since a change and didn't before, or names none any more. Where no line named any,
-- the lines that were changed alone can.
function Texts:is_other_tail(file, damage)
  local named = file.named
  if self.tail == '' then
    return false
  end
  if named == 'none' then
    local first = Bytes.row_at(file.buffer, damage.from)
    local last = Bytes.row_at(file.buffer, damage.from + damage.new)
    local lines = api.nvim_buf_get_lines(file.buffer, first, last + 1, false)
    if #vim.tbl_filter(Keywords.is_naming, lines) == 0 then
      return false
    end
  end
  file.named = Keywords.named_by(Keywords.lines_in(file.buffer))
  return (file.named == 'own') ~= (named == 'own')
end

-- Whether a file that no buffer shows has changed on disk since it was read.
local function is_changed_on_disk(file)
  local stat = uv.fs_stat(file.path)
  local state = stat and table.concat({ stat.mtime.sec, stat.mtime.nsec, stat.size, stat.ino }, ' ') or 'missing'
  local is_changed = state ~= file.state
  file.state = state
  return is_changed
end

-- Bringing the engine to it ------------------------------------------------------------------------------------------------

-- Lets the engine have the wanted files in their order, and follow each in its buffer. What is sent stands before any later
-- question, so there is nothing to wait for but the serials.
function Texts:set_files()
  local buffers, seen = Paths.loaded_buffers(), {}
  local wanted, troubles = Paths.wanted()
  self.left_out = troubles
  self:set_keywords(Paths.settings().keywords)
  for place, path in ipairs(wanted) do
    seen[path] = place <= most_files or nil
  end
  for place = #self.files, 1, -1 do
    if not seen[self.files[place].path] then
      self:drop(place)
    end
  end
  for place, path in ipairs(wanted) do
    if place > most_files then
      table.insert(self.left_out, path .. ': over ' .. most_files .. ' files')
    else
      -- A file that comes before one that is there: the engine adds after all others, so those go and come again.
      while self.files[place] and self.files[place].path ~= path do
        self:drop(#self.files)
      end
      if not self.files[place] then
        self:add(path, buffers[path])
      end
      self:look_at(self.files[place], buffers[path])
    end
  end
end

-- Lets texts that name no keywords have these words, or those of the program where there are none.
function Texts:set_keywords(words)
  local tail = words and '#+TODO: ' .. words:gsub('\n', ' ') .. '\n' or ''
  if tail ~= self.tail then
    self.tail = tail
    for _, file in ipairs(self.files) do
      file.is_lost = true
    end
  end
end

-- Adds a file after the others, with the text that it has in its buffer or on disk.
function Texts:add(path, buffer)
  local name = Paths.name_of(path, self.by_name)
  local file = { name = name, path = path, tries = 0, is_busy = true, waiting = {}, edits = {} }
  self.by_name[name] = file
  table.insert(self.files, file)
  if buffer then
    self:follow(file, buffer)
  else
    is_changed_on_disk(file)
  end
  local text = text_of(file)
  file.refused = not text and "can't be read" or nil
  text = self:with_tail(file, text or '')
  self.engine:send('add ' .. name .. ' ' .. #text, text, function(reply)
    if reply.ok then
      file.serial, file.length = reply.ok, #text
    else
      self:refused(file, reply)
    end
    self:is_done(file)
  end)
end

-- Adds a file without text again, where another session dropped it or its text was refused.
function Texts:send_add(file)
  self.engine:send('add ' .. file.name .. ' 0', nil, function(reply)
    file.serial = reply.ok or file.serial
  end)
end

function Texts:drop(place)
  local file = table.remove(self.files, place)
  file.buffer = nil
  self.by_name[file.name] = nil
  self.engine:send('drop ' .. file.name, nil, function() end)
end

function Texts:look_at(file, buffer)
  file.is_given_up = false
  if file.buffer ~= buffer then
    local is_same = Texts.is_as_on_disk(file, buffer)
    file.buffer, file.damage, file.tick, file.is_lost = nil, nil, nil, not is_same
    if buffer then
      self:follow(file, buffer)
    end
  end
  if not file.buffer and is_changed_on_disk(file) then
    file.is_lost = true
  end
end

-- Whether a buffer that came to show a file has the text that the engine was given from disk.
function Texts.is_as_on_disk(file, buffer)
  local was_read = buffer and not (file.buffer or file.is_busy or file.is_lost or file.refused)
  return was_read and not is_changed_on_disk(file) and Bytes.on_disk(file.path) == Bytes.of_buffer(buffer)
end

-- Sends what changed, of all files; calls `done` when the engine's texts are those of the buffers.
function Texts:settle(done)
  self:set_files()
  local left = 1
  local function one()
    left = left - 1
    if left == 0 then
      done()
    end
  end
  for _, file in ipairs(self.files) do
    left = left + 1
    self:flush(file, one)
  end
  one()
end

function Texts:is_done(file)
  file.is_busy = false
  local waiting = file.waiting
  file.waiting = {}
  for _, done in ipairs(waiting) do
    self:flush(file, done)
  end
end

-- Neovim tells of each change; should it ever miss one, the lengths differ, and the texts are compared anew. Once for each
-- state of the buffer: what was compared is known to be right.
local function doubt(file)
  if not file.buffer or file.is_lost then
    return
  end
  local tick = api.nvim_buf_get_changedtick(file.buffer)
  if tick ~= file.tick then
    file.tick = tick
    local damage = file.damage or { old = 0, new = 0 }
    file.is_lost = file.length + damage.new - damage.old ~= Bytes.length(file.buffer) + #file.tail
  end
end

-- Sends what changed of one file, at most one edit at a time, since the next one needs the serial that this one is answered.
function Texts:flush(file, done)
  if self.engine.ended then
    return done()
  end
  if file.is_busy then
    table.insert(file.waiting, done)
    return
  end
  if file.is_given_up then
    return done()
  end
  doubt(file)
  if file.is_lost then
    table.insert(file.waiting, done)
    return self:resync(file)
  end
  local damage = file.damage
  file.damage = nil
  if not damage or (damage.old == 0 and damage.new == 0) then
    return done()
  end
  table.insert(file.waiting, done)
  if self:is_other_tail(file, damage) then
    return self:resync(file)
  end
  self:edit(file, damage, Bytes.between(file.buffer, damage.from, damage.from + damage.new))
end

function Texts:edit(file, damage, payload)
  file.is_busy = true
  local words = { 'edit', session, file.name, file.serial, damage.from, damage.old, #payload }
  self.engine:send(table.concat(words, ' '), payload, function(reply)
    if reply.ok then
      Texts.note_edit(file, reply.ok, damage.from, damage.old, #payload)
      file.tries, file.refused = 0, nil
    else
      self:refused(file, reply)
    end
    self:is_done(file)
  end)
end

-- The engine's text of a file has `serial` since `del` bytes from `at` on became `len`.
function Texts.note_edit(file, serial, at, del, len)
  table.insert(file.edits, { before = file.serial, after = serial, at = at, del = del, len = len })
  if #file.edits > 2 * most_edits then
    file.edits = vim.list_slice(file.edits, most_edits + 1)
  end
  file.serial, file.length = serial, file.length + len - del
end

-- A command about a file wasn't taken: another session's change came first, or the range lies in the midst of a character.
-- Either way the whole text is compared anew. What is refused then as well, as a text that isn't UTF-8, is left until the next
-- question.
function Texts:refused(file, reply)
  if reply.err == 'stale' then
    file.serial = reply.more
  end
  file.tries = file.tries + 1
  file.is_lost = true
  if file.tries > 2 or reply.ended then
    file.tries, file.is_given_up, file.refused = 0, true, reply.err or reply.ended
  elseif reply.err == 'unknown' then
    self:send_add(file)
  end
end

-- Compares the engine's text with the buffer's, and sends the range in which they differ.
function Texts:resync(file)
  file.is_busy, file.is_lost, file.damage = true, false, nil
  self.engine:send('text ' .. file.name, nil, function(reply)
    local text = text_of(file)
    if not reply.view then
      self:refused(file, reply)
      return self:is_done(file)
    end
    file.damage, file.length = nil, #reply.view
    file.refused = not text and "can't be read" or nil
    text = self:with_tail(file, text or '')
    local from, old, new = Bytes.difference(reply.view, text)
    if old == 0 and new == 0 then
      return self:is_done(file)
    end
    self:edit(file, { from = from, old = old, new = new }, text:sub(from + 1, from + new))
  end)
end

-- The file of the engine's name.
function Texts:named(name)
  return self.by_name[name]
end

-- Why files are left out, a line for each.
function Texts:missing()
  local lines = vim.list_slice(self.left_out)
  for _, file in ipairs(self.files) do
    if file.refused then
      table.insert(lines, file.path .. ': ' .. file.refused)
    end
  end
  table.sort(lines)
  return lines
end

-- Puts what `complete` changed in the engine's text of a file into its buffer, which had that text. False where the buffer was
-- changed meanwhile: then it stays as it is, and its text goes to the engine again.
function Texts.take_over(file, reply)
  Texts.note_edit(file, reply.ok, reply.at, reply.del, #reply.bytes)
  if file.damage or file.is_lost or not file.buffer then
    file.is_lost = true
    return false
  end
  file.is_applying = true
  local ok, why = pcall(Bytes.put, file.buffer, reply.at, reply.del, reply.bytes)
  file.is_applying = false
  file.is_lost = not ok
  return ok, why
end

-- Stops following; the buffers stay as they are.
function Texts:stop()
  self.ended = true
  for _, file in ipairs(self.files) do
    file.buffer = nil
  end
end

Texts.widen = widen

return Texts
