-- Texts as bytes: those of buffers, those on disk as Neovim would read them, and where two of them differ.
-- SPDX-License-Identifier: Apache-2.0 OR MIT

local api = vim.api

local M = {}

-- A buffer's text: its lines, each with a line feed, also the last one.
function M.of_buffer(buffer)
  return table.concat(api.nvim_buf_get_lines(buffer, 0, -1, true), '\n') .. '\n'
end

-- Has Neovim count all bytes of a buffer. Where it isn't the current one, the line that was changed last is left out until
-- another line is read.
local function count_all(buffer)
  api.nvim_buf_get_lines(buffer, 0, 1, false)
  api.nvim_buf_get_lines(buffer, -2, -1, false)
end

-- How many bytes a buffer's text has, without making it.
function M.length(buffer)
  count_all(buffer)
  local last = api.nvim_buf_line_count(buffer) - 1
  return api.nvim_buf_get_offset(buffer, last) + #api.nvim_buf_get_lines(buffer, last, last + 1, true)[1] + 1
end

-- The row of a buffer, from 0, in which a byte of its text stands, and that byte's place in the row.
function M.row_at(buffer, byte)
  count_all(buffer)
  local low, high = 0, api.nvim_buf_line_count(buffer)
  while high - low > 1 do
    local middle = math.floor((low + high) / 2)
    if api.nvim_buf_get_offset(buffer, middle) <= byte then
      low = middle
    else
      high = middle
    end
  end
  return low, byte - api.nvim_buf_get_offset(buffer, low)
end

-- The bytes [from, upto) of a buffer's text.
function M.between(buffer, from, upto)
  if from >= upto then
    return ''
  end
  local first, skip = M.row_at(buffer, from)
  local last = M.row_at(buffer, upto - 1)
  local text = table.concat(api.nvim_buf_get_lines(buffer, first, last + 1, true), '\n') .. '\n'
  return text:sub(skip + 1, skip + upto - from)
end

-- The text of a file as a buffer would have it: without a byte order mark, lines that all end in CR and LF without the CR, and a
-- line feed after the last line. So nothing changes for the engine where a file is visited. Nil where it can't be read.
function M.on_disk(path)
  local file = io.open(path, 'rb')
  local text = file and file:read('*a')
  if file then
    file:close()
  end
  if not text then
    return nil
  end
  text = text:gsub('^\239\187\191', '')
  if text:find('\r\n', 1, true) and not text:find('[^\r]\n') and text:sub(1, 1) ~= '\n' then
    text = text:gsub('\r\n', '\n')
  end
  return text:sub(-1) == '\n' and text or text .. '\n'
end

local function is_inside(byte)
  return byte ~= nil and byte >= 128 and byte < 192
end

-- Where two texts differ: the bytes before, and how many of either stand between what is equal at both ends. The places lie at
-- characters.
function M.difference(old, new)
  local most = math.min(#old, #new)
  local front = 0
  while front + 4096 <= most and old:sub(front + 1, front + 4096) == new:sub(front + 1, front + 4096) do
    front = front + 4096
  end
  while front < most and old:byte(front + 1) == new:byte(front + 1) do
    front = front + 1
  end
  while is_inside(old:byte(front + 1)) or is_inside(new:byte(front + 1)) do
    front = front - 1
  end
  local back = 0
  while back + 4096 <= most - front and old:sub(-back - 4096, -back - 1) == new:sub(-back - 4096, -back - 1) do
    back = back + 4096
  end
  while back < most - front and old:byte(#old - back) == new:byte(#new - back) do
    back = back + 1
  end
  while back > 0 and is_inside(old:byte(#old - back + 1)) do
    back = back - 1
  end
  return front, #old - front - back, #new - front - back
end

-- Puts `bytes` in place of `del` bytes of a buffer from `at` on, as one change that can be undone. Only what differs is changed.
function M.put(buffer, at, del, bytes)
  local front, old, new = M.difference(M.between(buffer, at, at + del), bytes)
  if old == 0 and new == 0 then
    return
  end
  local first_row, first_column = M.row_at(buffer, at + front)
  local last_row, last_column = M.row_at(buffer, at + front + old)
  local lines = vim.split(bytes:sub(front + 1, front + new), '\n', { plain = true })
  api.nvim_buf_set_text(buffer, first_row, first_column, last_row, last_column, lines)
end

return M
