cat > habits.org <<'END'
* TODO Stretch
SCHEDULED: <2024-02-28 Wed .+1d>
:PROPERTIES:
:STYLE: habit
:END:
:LOGBOOK:
- State "DONE"       from "TODO"       [2024-02-27 Tue 07:30]
- State "TODO"       from "DONE"       [2024-02-26 Mon 07:30]
- State "DONE"       from "TODO"       [2024-02-25 Sun 07:30]
:END:
* TODO [#A] Read :home:
SCHEDULED: <2024-02-24 Sat .+1d/2d>
:PROPERTIES:
:Effort:   0:20
:style:    habit
:END:
- State "DONE"       from "TODO"       [2024-02-23 Fri 20:00]
* TODO Swim
SCHEDULED: <2024-02-28 Wed>
:PROPERTIES:
:STYLE:    habit
:END:
* Sleep
:PROPERTIES:
:STYLE:    habit
:END:
* TODO Drink
SCHEDULED: <2024-02-28 Wed .+12h>
:PROPERTIES:
:STYLE:    habit
:END:
* TODO Walk
SCHEDULED: <2024-02-28 Wed ++1w/7d>
:PROPERTIES:
:STYLE:    habit
:END:
* DONE Over
SCHEDULED: <2024-02-28 Wed .+1d>
:PROPERTIES:
:STYLE:    habit
:END:
* TODO COMMENT Hidden
SCHEDULED: <2024-02-28 Wed .+1d>
:PROPERTIES:
:STYLE:    habit
:END:
* TODO None
SCHEDULED: <2024-02-28 Wed .+1d>
:PROPERTIES:
:STYLE:    Habit
:END:
END
