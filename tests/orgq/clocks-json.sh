cat > clocked.org <<'END'
CLOCK: [2024-02-27 Tue 08:00]--[2024-02-27 Tue 09:00]
* TODO Report :work:
:LOGBOOK:
CLOCK: [2024-02-28 Wed 09:30]
CLOCK: [2024-02-26 Mon 23:15]--[2024-02-27 Tue 00:45] =>  1:30
:END:
#+begin_example
CLOCK: [2024-02-27 Tue 10:00]--[2024-02-27 Tue 11:00]
#+end_example
CLOCK: [2024-02-27 Tue 10:00]--[2024-02-27 Tue 11:00]
** Backwards
CLOCK: [2024-02-27 Tue 12:00]--[2024-02-27 Tue 11:00]
* Last week
CLOCK: [2024-02-20 Tue 12:00]--[2024-02-20 Tue 13:00]
END
