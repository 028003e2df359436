cat > nested.org <<'END'
* Projects
** Garden "A"
*** TODO Sow
DEADLINE: <2024-03-05 Tue 10:00 +1w -2d> SCHEDULED: <2024-03-01 Fri 9:00>
:PROPERTIES:
:Effort: 1:30
:END:
*** DONE Dig
CLOSED: [2024-02-20 Tue 12:00]
:PROPERTIES:
:Effort: much
:END:
END
