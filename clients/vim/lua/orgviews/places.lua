-- Where the heading of a row is now: a place in an older text is taken through the edits that were sent since.
-- SPDX-License-Identifier: Apache-2.0 OR MIT

local api = vim.api
local Bytes = require('orgviews.bytes')

local M = {}

-- Where `byte` of the text that a file had with `serial` is now, and how many bytes from there on are what they were (nil: all).
-- Nil where the byte itself was replaced, and where an edit since isn't known, as one of another session.
function M.byte_now(file, serial, byte)
  local since, wanted = {}, file.serial
  for place = #file.edits, 1, -1 do
    if wanted == serial or file.edits[place].after ~= wanted then
      break
    end
    table.insert(since, file.edits[place])
    wanted = file.edits[place].before
  end
  local same
  for place = wanted == serial and #since or 0, 1, -1 do
    local edit = since[place]
    if edit.at + edit.del <= byte then
      byte = byte + edit.len - edit.del
    elseif edit.at > byte then
      same = math.min(same or math.huge, edit.at - byte)
    else
      return nil
    end
  end
  if wanted == serial then
    return byte, same
  end
end

-- The line of a file's present text that begins at `byte`, and its number from 1; nil where none begins there.
local function line_at(file, byte)
  if file.buffer then
    local row, column = Bytes.row_at(file.buffer, byte)
    local line = api.nvim_buf_get_lines(file.buffer, row, row + 1, false)[1]
    if column == 0 then
      return line, row + 1
    end
    return nil
  end
  local text = Bytes.on_disk(file.path) or ''
  if byte == 0 or text:sub(byte, byte) == '\n' then
    local _, before = text:sub(1, byte):gsub('\n', '')
    return text:match('^[^\n]*', byte + 1), before + 1
  end
end

-- The line, from 1, on which the heading of a view's `place` stands now. Nil where its line isn't what it was, or where that
-- isn't known. The file's changes have been sent.
function M.heading_now(file, place)
  if file.is_busy or file.is_lost or file.damage or file.refused then
    return nil
  end
  local byte, same = M.byte_now(file, place.serial, place.byte)
  if file.serial == place.serial and not file.buffer then
    return place.line
  end
  local line, number = nil, nil
  if byte then
    line, number = line_at(file, byte)
  end
  local is_heading = line and line:find('^%*+ ') and #line + 1 <= (same or math.huge)
  return is_heading and number or nil
end

return M
