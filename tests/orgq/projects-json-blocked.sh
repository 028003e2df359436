cat > order.org <<'END'
* TODO Book
:PROPERTIES:
:ORDERED:  t
:END:
** DONE Read
** TODO Plan
*** TODO Words
** TODO Write
*** TODO Page
** TODO Print
:PROPERTIES:
:NOBLOCKING: t
:END:
* TODO Loose
:PROPERTIES:
:ORDERED:  nil
:END:
** TODO One
** TODO Two
* Kept
:PROPERTIES:
:ORDERED:
:END:
** TODO First
** TODO Second
*** DONE Third
*** TODO Fourth
END
