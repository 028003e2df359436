export XDG_CONFIG_HOME=conf HOME=/home/ann
mkdir -p conf/orgq
cat > conf/orgq/views <<'TEXT'
[review]
show = projects --stuck --title "Stuck"
show = habits --ascii --limit 1
TEXT
cat > plans.org <<'END'
#+TODO: TODO NEXT WAIT | DONE CANCELLED
* Home
** TODO Bathroom
:PROPERTIES:
:Effort: 1:00
:END:
*** NEXT Choose tiles
SCHEDULED: <2024-03-05 Tue>
:PROPERTIES:
:Effort: 2h
:END:
CLOCK: [2024-02-27 Tue 09:10]--[2024-02-27 Tue 10:40] =>  1:30
*** DONE Measure
:PROPERTIES:
:Effort: 4:00
:END:
CLOCK: [2024-02-26 Mon 09:00]--[2024-02-26 Mon 09:30] =>  0:30
*** TODO [#A] Plumber
DEADLINE: <2024-03-01 Fri>
**** TODO Call him
*** TODO COMMENT Idea
SCHEDULED: <2024-02-01 Thu>
*** TODO Old :ARCHIVE:
** Garden :project:
*** WAIT Seeds
** DONE Cellar
*** TODO Sweep
* TODO [#B] Lease :office:
** TODO Find contract
*** CANCELLED Ask Ann
* TODO Fence
SCHEDULED: <2024-04-01 Mon>
** TODO Wood
* TODO Alone
END
cat > habits.org <<'END'
* TODO Stretch
SCHEDULED: <2024-02-28 Wed .+1d>
:PROPERTIES:
:STYLE: habit
:END:
:LOGBOOK:
- State "DONE"       from "TODO"       [2024-02-27 Tue 07:30]
- State "TODO"       from "DONE"       [2024-02-26 Mon 07:30]
- State "DONE"       from "TODO"       [2024-02-25 Sun 07:30]
:END:
* TODO [#A] Read :home:
SCHEDULED: <2024-02-24 Sat .+1d/2d>
:PROPERTIES:
:Effort:   0:20
:style:    habit
:END:
- State "DONE"       from "TODO"       [2024-02-23 Fri 20:00]
* TODO Swim
SCHEDULED: <2024-02-28 Wed>
:PROPERTIES:
:STYLE:    habit
:END:
* Sleep
:PROPERTIES:
:STYLE:    habit
:END:
* TODO Drink
SCHEDULED: <2024-02-28 Wed .+12h>
:PROPERTIES:
:STYLE:    habit
:END:
* TODO Walk
SCHEDULED: <2024-02-28 Wed ++1w/7d>
:PROPERTIES:
:STYLE:    habit
:END:
* DONE Over
SCHEDULED: <2024-02-28 Wed .+1d>
:PROPERTIES:
:STYLE:    habit
:END:
* TODO COMMENT Hidden
SCHEDULED: <2024-02-28 Wed .+1d>
:PROPERTIES:
:STYLE:    habit
:END:
* TODO None
SCHEDULED: <2024-02-28 Wed .+1d>
:PROPERTIES:
:STYLE:    Habit
:END:
END
