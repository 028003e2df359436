cat > home.org <<'END'
* Guests
<2024-02-27 Tue>--<2024-02-29 Thu>
* Choir
<2024-02-28 Wed 20:00-22:00 +1w>
* TODO [#A] Pay the energy bill :money:
DEADLINE: <2024-02-26 Mon>
* TODO Tax letter :money:
SCHEDULED: <2024-02-28 Wed> DEADLINE: <2024-03-08 Fri>
* TODO Pay rent
SCHEDULED: <2024-02-01 Thu>
* TODO Run
SCHEDULED: <2024-02-27 Tue .+2d/3d>
:PROPERTIES:
:STYLE: habit
:END:
END
cat > work.org <<'END'
#+TODO: TODO NEXT WAIT | DONE
* Meetings
** Stand-up
<2024-02-26 Mon 09:15-09:30 +1d>
** Interview: Bo <2024-02-28 Wed 10:00-11:00>
** Interview: Ana <2024-02-28 Wed 11:00-12:00>
* Billing migration :work:deep:
** NEXT [#A] Write the importer
DEADLINE: <2024-02-28 Wed>
:PROPERTIES:
:Effort: 4:00
:END:
** TODO Read the [[https://example.org/p][14 applications]] :hiring:
SCHEDULED: <2024-02-28 Wed 14:00> DEADLINE: <2024-02-29 Thu>
* WAIT Answers from the agency :hiring:
SCHEDULED: <2024-02-23 Fri>
* DONE Book the room
SCHEDULED: <2024-02-28 Wed>
* TODO [#C] Timesheet
DEADLINE: <2024-03-05 Tue>
END
