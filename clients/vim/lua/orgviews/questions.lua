-- What questions are made of, and what their answers say to a person.
-- SPDX-License-Identifier: Apache-2.0 OR MIT

local M = {}

-- The days that `words` name: how many, as a word, and the first one as YYYY-MM-DD, or none.
function M.span(words)
  local span = { days = '1' }
  for _, word in ipairs(words) do
    if word:match('^%d+$') and #word <= 3 then
      span.days = word
    else
      span.date = word
    end
  end
  return span
end

-- The day `count` days after `date`, or before it.
function M.days_later(date, count)
  local year, month, day = date:match('^(%d+)-(%d+)-(%d+)')
  return os.date('%Y-%m-%d', os.time({ year = year, month = month, day = day + count, hour = 12 }))
end

-- The question for a clock table. `words` is a block (thisweek) and options as orgq has them; what stands after --match is one
-- expression.
function M.clock(words)
  local front, expression = words:match('^(.-)%s*%-%-match[= ]%s*(.*)$')
  local block, level, rest = 'thisweek', '2', ''
  local given = vim.split((front or words):gsub('(%-%-%l+)=', '%1 '), '%s+', { trimempty = true })
  local place = 1
  while given[place] do
    local word = given[place]
    if word == '--level' then
      place = place + 1
      level = given[place] or ''
    elseif word == '--step' then
      place = place + 1
      rest = rest .. ' step=' .. (given[place] or '')
    elseif word == '--effort' then
      rest = rest .. ' effort'
    else
      block = word
    end
    place = place + 1
  end
  local question = ('clock block=%s maxlevel=%s%s'):format(block, level, rest)
  return expression and question .. ' match=' .. expression or question
end

local refusals = {
  date = 'no such day',
  days = 'days are 1 to 366',
  option = 'no such block or option of a clock table',
  regexp = 'a pattern that is none',
}

-- What a person reads where an answer is a refusal.
function M.refusal(answer)
  local reply, asked = answer.reply, answer.refused
  if reply.ended then
    return reply.ended
  end
  if reply.err == 'match' then
    local expression = asked:gsub('^places ', ''):gsub('^match ', ''):gsub('^clock .-match=', '')
    return 'no expression: ' .. expression:sub(1, reply.more) .. ' >' .. expression:sub(reply.more + 1)
  end
  if reply.err == 'command' then
    return 'words that are none: ' .. asked
  end
  return refusals[reply.err] or reply.err
end

-- The words of sequences of keywords, each once.
function M.words_of(sequences)
  local words, seen = {}, { ['|'] = true }
  for _, sequence in ipairs(sequences) do
    for _, word in ipairs(sequence) do
      if not seen[word] then
        seen[word] = true
        table.insert(words, word)
      end
    end
  end
  return words
end

-- The tags at the end of rows, each once, in their order.
function M.tags_of(lines)
  local tags, seen = {}, {}
  for _, line in ipairs(lines) do
    for tag in (line:match(' :(%S+):$') or ''):gmatch('[^:]+') do
      if not seen[tag] then
        seen[tag] = true
        table.insert(tags, tag)
      end
    end
  end
  table.sort(tags)
  return tags
end

return M
