-- Keywords of texts that name none of their own: a line after the text names those of orgq's settings, as orgq does it.
-- SPDX-License-Identifier: Apache-2.0 OR MIT

local api = vim.api

local M = {}

-- Whether a line names keywords. A bar alone names none.
function M.is_naming(line)
  local low = line:lower()
  for _, front in ipairs({ '^[ \t\r]*#%+todo:', '^[ \t\r]*#%+seq_todo:', '^[ \t\r]*#%+typ_todo:' }) do
    local _, stop = low:find(front)
    if stop then
      local rest = line:sub(stop + 1)
      return rest:find('[^| \t\r]') ~= nil or rest:find('||', 1, true) ~= nil
    end
  end
  return false
end

local function begun(line)
  return line:lower():match('^[ \t\r]*#%+begin_([^ \t\r]+)')
end

local function ended(line)
  return line:lower():match('^[ \t\r]*#%+end_([^ \t\r]+)[ \t\r]*$')
end

-- Whether a line of a section names keywords and stands in no block. A block ends at the next line that ends its name; where there
-- is none, there is no block.
local function names_outside_blocks(section)
  local stops, used = {}, {}
  for place, line in ipairs(section) do
    local name = ended(line)
    if name then
      stops[name] = stops[name] or {}
      table.insert(stops[name], place)
    end
  end
  local place = 1
  while place <= #section do
    local name = begun(section[place])
    local ends = name and stops[name] or {}
    local k = name and used[name] or 1
    while ends[k] and ends[k] < place do
      k = k + 1
    end
    if name then
      used[name] = k
    end
    if ends[k] then
      place = ends[k]
    elseif M.is_naming(section[place]) then
      return true
    end
    place = place + 1
  end
  return false
end

-- Whether the lines that `next_line()` gives, one after the other and then nil, name keywords: `own` where they do, `blocked` where
-- such lines stand in blocks alone, where they don't count, and `none`.
function M.named_by(next_line)
  local section, has_block, is_named, found = {}, false, false, 'none'
  for line in next_line do
    if line:find('^%*+ ') then
      if is_named and names_outside_blocks(section) then
        return 'own'
      end
      section, has_block, is_named = {}, false, false
    end
    if M.is_naming(line) then
      if not has_block then
        return 'own'
      end
      is_named, found = true, 'blocked'
    end
    has_block = has_block or begun(line) ~= nil
    table.insert(section, line)
  end
  return is_named and names_outside_blocks(section) and 'own' or found
end

-- The lines of a text, each of which ends in a line feed.
function M.lines_of(text)
  return text:gmatch('([^\n]*)\n')
end

-- The lines of a buffer, some hundred at a time: who finds one at its front reads no more.
function M.lines_in(buffer)
  local lines, place, row = {}, 0, 0
  return function()
    if place == #lines then
      lines, place = api.nvim_buf_get_lines(buffer, row, row + 500, false), 0
      row = row + #lines
    end
    place = place + 1
    return lines[place]
  end
end

return M
