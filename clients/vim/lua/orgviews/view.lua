-- Buffers that show a view, line for line, and go from a line to its heading.
-- SPDX-License-Identifier: Apache-2.0 OR MIT

local api = vim.api

local View = {}
View.__index = View

-- The buffer of exactly this name, which may hold characters that patterns of file names have.
local function buffer_named(name)
  for _, buffer in ipairs(api.nvim_list_bufs()) do
    if api.nvim_buf_get_name(buffer) == name then
      return buffer
    end
  end
end

-- The buffer of a question, opened below. `title` names it.
function View.open(title)
  local name = 'orgviews://' .. title
  local buffer = buffer_named(name)
  if not buffer then
    buffer = api.nvim_create_buf(false, true)
    api.nvim_buf_set_name(buffer, name)
    vim.bo[buffer].buftype, vim.bo[buffer].swapfile = 'nofile', false
    vim.bo[buffer].modifiable = false
  end
  local window = vim.fn.bufwinid(buffer)
  if window > 0 then
    api.nvim_set_current_win(window)
  else
    vim.cmd('botright split')
    api.nvim_win_set_buf(0, buffer)
    vim.wo.wrap, vim.wo.number, vim.wo.relativenumber, vim.wo.cursorline = false, false, false, true
  end
  vim.bo[buffer].filetype = 'orgviews'
  return setmetatable({ buffer = buffer }, View)
end

-- The places (from 1) of the lines that read `text`.
local function equal_lines(lines, text)
  local places = {}
  for place, line in ipairs(lines) do
    if line == text then
      table.insert(places, place)
    end
  end
  return places
end

-- The one of `rows` that is nearest to `row`; nil without any.
local function nearest(rows, row)
  local best
  for _, it in ipairs(rows) do
    if not best or math.abs(it - row) < math.abs(best - row) then
      best = it
    end
  end
  return best
end

-- Where line `row` of `old` stands in `new`: of equal lines the one that is as many-th among them, where there are as many as
-- before, else the nearest; nil where there is none.
local function row_of_text(old, new, row)
  local before, after = equal_lines(old, old[row]), equal_lines(new, old[row])
  if #before == #after then
    for number, place in ipairs(before) do
      if place == row then
        return after[number]
      end
    end
  end
  return nearest(after, row)
end

-- What is in a place: the file's `name` and `serial`, and of a heading its `line` from 1 and its `byte` from 0. Nil for the place of
-- a day, a step or a total.
local function parse(place)
  local name, serial, line, byte = (place or ''):match('^(%S+) (%d+) (%S+) (%S+) %S+$')
  if not name then
    return nil
  end
  return { name = name, serial = tonumber(serial), line = tonumber(line), byte = tonumber(byte) }
end

-- The rows whose places are of the heading at `byte` of the file `name`.
local function rows_of(places, name, byte)
  local rows = {}
  for row, place in ipairs(places) do
    local it = parse(place)
    if it and it.name == name and it.byte == byte then
      table.insert(rows, row)
    end
  end
  return rows
end

-- The row of another answer at which a cursor that was in `row` stands: that of its heading, where that can be followed, else of its
-- text; else, as where the heading isn't in the answer any more, the same row.
function View:row_in(answer, old, row, follow)
  local place = parse(self.places and self.places[row])
  local byte = place and place.byte and follow(place)
  local found
  if byte then
    found = nearest(rows_of(answer.places, place.name, byte), row)
  else
    found = row_of_text(old, answer.lines, row)
  end
  return found or math.max(1, math.min(row, #answer.lines))
end

-- Shows another answer, its lines and their places: only the lines that differ are replaced, and the cursor of each window stays
-- at its heading. `follow(place)` gives the present byte of a heading, or nil where that isn't known.
function View:fill(answer, follow)
  local old, new = api.nvim_buf_get_lines(self.buffer, 0, -1, true), answer.lines
  if #new == 0 then
    new = { '' }
  end
  local cursors = {}
  for _, window in ipairs(vim.fn.win_findbuf(self.buffer)) do
    local at = api.nvim_win_get_cursor(window)
    cursors[window] = { self:row_in(answer, old, at[1], follow), at[2] }
  end
  local front, back = 0, 0
  while front < math.min(#old, #new) and old[front + 1] == new[front + 1] do
    front = front + 1
  end
  while back < math.min(#old, #new) - front and old[#old - back] == new[#new - back] do
    back = back + 1
  end
  vim.bo[self.buffer].modifiable = true
  api.nvim_buf_set_lines(self.buffer, front, #old - back, true, vim.list_slice(new, front + 1, #new - back))
  vim.bo[self.buffer].modifiable, vim.bo[self.buffer].modified = false, false
  for window, at in pairs(cursors) do
    api.nvim_win_set_cursor(window, at)
  end
  self.places = answer.places
end

-- Forgets where rows stand: another engine counts its serials from 1 again, so no place of this one's is true of its texts.
function View:forget_places()
  self.places = nil
end

-- The place of the line under the cursor, see `parse`.
function View:place()
  return parse(self.places and self.places[api.nvim_win_get_cursor(0)[1]])
end

-- How many lines read as `text`.
function View:count(text)
  return #equal_lines(api.nvim_buf_get_lines(self.buffer, 0, -1, true), text)
end

return View
