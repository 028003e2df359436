" Completes the words of the commands over orgviews. See :help orgviews.
" SPDX-License-Identifier: Apache-2.0 OR MIT

" Those of {words} that begin with {lead}.
function! s:beginning(lead, words) abort
  return filter(copy(a:words), 'strpart(v:val, 0, len(a:lead)) ==# a:lead')
endfunction

" The keywords of all files, but those that stand in the line already.
function! orgviews#complete_todo(lead, line, at) abort
  let given = split(a:line)[1:]
  let words = s:beginning(a:lead, luaeval("require('orgviews').keywords()"))
  return filter(words, 'v:val ==# a:lead || index(given, v:val) < 0')
endfunction

" The keywords of the file whose row is under the cursor.
function! orgviews#complete_keyword(lead, line, at) abort
  return s:beginning(a:lead, luaeval("require('orgviews').keywords(true)"))
endfunction

" Tags and names of properties after a sign, keywords after a slash.
function! orgviews#complete_match(lead, line, at) abort
  let front = matchstr(a:lead, '^.*[-+|&/!]')
  let names = front =~# '/' ? luaeval("require('orgviews').keywords()")
        \ : luaeval("require('orgviews').tags()") + orgq#own_names()
  return map(s:beginning(strpart(a:lead, len(front)), names), 'front . v:val')
endfunction

function! orgviews#complete_clock(lead, line, at) abort
  return a:line =~# '--match' ? orgviews#complete_match(a:lead, a:line, a:at) : orgq#complete_clock(a:lead, a:line, a:at)
endfunction
