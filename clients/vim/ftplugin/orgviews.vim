" Keys of a view: see :help orgviews-keys.
" SPDX-License-Identifier: Apache-2.0 OR MIT
if exists('b:did_ftplugin')
  finish
endif
let b:did_ftplugin = 1

nnoremap <buffer> <silent> <CR> <Cmd>lua require('orgviews').go()<CR>
nnoremap <buffer> <silent> <Tab> <Cmd>lua require('orgviews').peek()<CR>
nnoremap <buffer> <silent> <2-LeftMouse> <Cmd>lua require('orgviews').go()<CR>
nnoremap <buffer> <silent> t <Cmd>lua require('orgviews').complete()<CR>
nnoremap <buffer> <silent> f <Cmd>lua require('orgviews').move(vim.v.count1)<CR>
nnoremap <buffer> <silent> b <Cmd>lua require('orgviews').move(-vim.v.count1)<CR>
nnoremap <buffer> <silent> . <Cmd>lua require('orgviews').move(0)<CR>
nnoremap <buffer> <silent> R <Cmd>lua require('orgviews').again()<CR>
nnoremap <buffer> <silent> q <Cmd>close<CR>
command! -buffer -nargs=? -complete=customlist,orgviews#complete_keyword OrgviewsComplete lua require('orgviews').complete(<f-args>)
command! -buffer -nargs=? -complete=customlist,orgviews#complete_match OrgviewsFilter lua require('orgviews').filter(<q-args>)
