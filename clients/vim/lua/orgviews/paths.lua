-- Which files are asked about, and under which names the engine has them.
-- SPDX-License-Identifier: Apache-2.0 OR MIT

local uv = vim.uv or vim.loop
local api = vim.api

local M = {}

-- The folder of orgq's settings.
local function settings_folder()
  local folder = vim.env.XDG_CONFIG_HOME
  return ((folder and folder ~= '') and folder or vim.fn.expand('~/.config')) .. '/orgq'
end

-- The paths of the list in which orgq looks where neither its options nor its file `config` name any.
local function listed_paths()
  local named = vim.env.ORGQ_FILES
  if named and named ~= '' then
    return vim.split(named, ':', { plain = true })
  end
  local list = settings_folder() .. '/files'
  local paths = {}
  if vim.fn.filereadable(list) == 1 then
    for _, line in ipairs(vim.fn.readfile(list)) do
      line = vim.trim(line)
      if line ~= '' and not line:find('^#') then
        table.insert(paths, line)
      end
    end
  end
  return paths
end

-- The option and its value in a line of `orgq config`, which begins with where it is from.
local function option_in(line)
  for _, from in ipairs({ '^command line: ', '^ORGQ_FILES: ', '^.-:%d+: ' }) do
    local rest, count = line:gsub(from, '', 1)
    if count == 1 then
      return rest:match('^(%l+) (.*)$')
    end
  end
end

-- Asks orgq for its settings. Without the program its list of files alone counts.
local function ask_settings()
  local settings = { files = {}, inherit = {}, troubles = {} }
  local answer = vim.fn['orgq#config']()
  if answer.status ~= 0 and answer.status ~= 1 then
    settings.files = listed_paths()
    if answer.status ~= -1 then
      settings.troubles = vim.tbl_filter(function(line)
        return line ~= ''
      end, answer.errors)
    end
    return settings
  end
  for _, line in ipairs(answer.output) do
    local option, value = option_in(line)
    if option == 'file' then
      table.insert(settings.files, value)
    elseif option == 'inherit' then
      table.insert(settings.inherit, value)
    elseif option == 'keywords' or option == 'profile' then
      settings[option] = value
    end
  end
  return settings
end

-- What is another thing once the file at a path is another one.
local function state_of(path)
  local stat = uv.fs_stat(path)
  return stat and { stat.mtime.sec, stat.mtime.nsec, stat.size, stat.ino } or false
end

local asked = {}

-- What orgq is configured with, by its settings and `g:orgq_options`: `files`, the words of `keywords` and the number of
-- the `profile`, or nil, the names of properties to `inherit`, and `troubles`. It is asked again only where something of that is
-- another one.
function M.settings()
  local folder = settings_folder()
  local key = vim.inspect({
    vim.g.orgq_command or false, vim.g.orgq_options or false, vim.env.ORGQ_FILES or false, vim.env.HOME or false, uv.cwd(), folder,
    state_of(folder .. '/config'), state_of(folder .. '/files'),
  })
  if asked.key ~= key then
    asked = { key = key, settings = ask_settings() }
  end
  return asked.settings
end

-- The files of a folder; none, after a line in `troubles`, where it can't be read.
local function in_folder(path, troubles)
  local ok, names = pcall(vim.fn.readdir, path, [[v:val =~# '^[^.].*\.org$']])
  if not ok then
    table.insert(troubles, path .. ": can't be read")
    return {}
  end
  return vim.tbl_map(function(name)
    return vim.fn.fnamemodify(path, ':p') .. name
  end, names)
end

-- The files that are asked about, as real paths, each once: those of `g:orgq_files`, or of orgq's own settings. A path is what it
-- says, but for `~/` in front. What can't be looked at has a line in the second value, and takes no other file along.
function M.wanted()
  local settings = M.settings()
  local given = vim.g.orgq_files
  given = (given and #given > 0) and given or settings.files
  local paths, seen, troubles = {}, {}, vim.list_slice(settings.troubles)
  local function put(path)
    local real = uv.fs_realpath(path) or path
    if not seen[real] then
      seen[real] = true
      table.insert(paths, real)
    end
  end
  for _, path in ipairs(given) do
    path = vim.fn.fnamemodify(path, ':p')
    if vim.fn.isdirectory(path) == 1 then
      vim.tbl_map(put, in_folder(path, troubles))
    else
      put(path)
    end
  end
  return paths, troubles
end

-- The buffers that are loaded and show a file, by its real path.
function M.loaded_buffers()
  local buffers = {}
  for _, buffer in ipairs(api.nvim_list_bufs()) do
    if api.nvim_buf_is_loaded(buffer) and vim.bo[buffer].buftype == '' then
      local name = api.nvim_buf_get_name(buffer)
      if name ~= '' then
        buffers[uv.fs_realpath(name) or name] = buffer
      end
    end
  end
  return buffers
end

local function escape(byte)
  return ('%%%02X'):format(byte:byte())
end

-- The characters of UTF-8 that have more than one byte.
local characters = {
  '[\194-\223][\128-\191]',
  '\224[\160-\191][\128-\191]',
  '[\225-\236\238\239][\128-\191][\128-\191]',
  '\237[\128-\159][\128-\191]',
  '\240[\144-\191][\128-\191][\128-\191]',
  '[\241-\243][\128-\191][\128-\191][\128-\191]',
  '\244[\128-\143][\128-\191][\128-\191]',
}

-- A name that isn't UTF-8 with all its bytes over 127 as a percent sign and their number.
local function as_utf8(name)
  local rest = name
  for _, character in ipairs(characters) do
    rest = rest:gsub(character, ' ')
  end
  return rest:find('[\128-\255]') and name:gsub('[\128-\255]', escape) or name
end

-- The engine's name of a path that isn't `taken`: no byte below 33 stands in it, and at most 255 bytes. Its end is kept, since
-- the category is read from there.
function M.name_of(path, taken)
  local name = (as_utf8(vim.fn.fnamemodify(path, ':~')))
  name = name:gsub(' ', '\194\160'):gsub('[%z\1-\31\127]', escape)
  name = name:sub(-240):gsub('^[\128-\191]+', '')
  local free, count = name, 1
  while taken[free] do
    count = count + 1
    free = count .. ':' .. name
  end
  return free
end

return M
