cat > plans.org <<'END'
#+TODO: TODO NEXT WAIT | DONE CANCELLED
* Home
** TODO Bathroom
:PROPERTIES:
:Effort: 1:00
:END:
*** NEXT Choose tiles
SCHEDULED: <2024-03-05 Tue>
:PROPERTIES:
:Effort: 2h
:END:
CLOCK: [2024-02-27 Tue 09:10]--[2024-02-27 Tue 10:40] =>  1:30
*** DONE Measure
:PROPERTIES:
:Effort: 4:00
:END:
CLOCK: [2024-02-26 Mon 09:00]--[2024-02-26 Mon 09:30] =>  0:30
*** TODO [#A] Plumber
DEADLINE: <2024-03-01 Fri>
**** TODO Call him
*** TODO COMMENT Idea
SCHEDULED: <2024-02-01 Thu>
*** TODO Old :ARCHIVE:
** Garden :project:
*** WAIT Seeds
** DONE Cellar
*** TODO Sweep
* TODO [#B] Lease :office:
** TODO Find contract
*** CANCELLED Ask Ann
* TODO Fence
SCHEDULED: <2024-04-01 Mon>
** TODO Wood
* TODO Alone
END
