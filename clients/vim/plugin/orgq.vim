" Org agendas, lists, clock tables and what will not show in the quickfix list, by the program orgq. Vim 8.2 and Neovim 0.7; see :help orgq.
" SPDX-License-Identifier: Apache-2.0 OR MIT

if exists('g:loaded_orgq') || &compatible
  finish
endif
let g:loaded_orgq = 1

" With a bang the rows go into the window's location list.
command! -bang -bar -nargs=* -complete=customlist,orgq#complete_agenda OrgqAgenda call orgq#agenda(<bang>0, [<f-args>])
command! -bang -bar -nargs=* -complete=customlist,orgq#complete_todo OrgqTodo call orgq#todo(<bang>0, [<f-args>])
command! -bang -bar -nargs=* -complete=customlist,orgq#complete_next OrgqNext call orgq#next(<bang>0, [<f-args>])
command! -bang -bar -nargs=1 -complete=customlist,orgq#complete_view OrgqView call orgq#view(<bang>0, <q-args>)
command! -bang -bar -nargs=* -complete=customlist,orgq#complete_check OrgqCheck call orgq#check(<bang>0, [<f-args>])
" An expression may hold a bar and quotation marks, so these two take the rest of the line.
command! -bang -nargs=1 -complete=customlist,orgq#complete_match OrgqMatch call orgq#match(<bang>0, <q-args>)
command! -bang -nargs=* -complete=customlist,orgq#complete_clock OrgqClock call orgq#clock(<bang>0, <q-args>)
command! -bang -bar OrgqAgain call orgq#again(<bang>0)

if has('nvim-0.7')
  command! -bar -nargs=* -complete=customlist,orgq#complete_agenda OrgviewsAgenda lua require('orgviews').agenda({<f-args>})
  command! -bar -nargs=* -complete=customlist,orgviews#complete_todo OrgviewsTodo lua require('orgviews').todo({<f-args>})
  command! -nargs=1 -complete=customlist,orgviews#complete_match OrgviewsMatch lua require('orgviews').match(<q-args>)
  command! -nargs=* -complete=customlist,orgviews#complete_clock OrgviewsClock lua require('orgviews').clock(<q-args>)
  command! -bar OrgviewsStatus lua require('orgviews').status()
  command! -bar OrgviewsStop lua require('orgviews').stop()
endif
