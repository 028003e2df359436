cat > notes.org << 'EOF'
#+TODO: TODO NEXT | DONE
* TODO Plan the offsite :work:
SCHEDULED: <2024-03-01 Fri>
The budget is not settled.
  Budget of 4,000, says Jürgen Groß.
** NEXT Ask for the room
Straße 12, first floor
* Old :ARCHIVE:
the budget of last year
* COMMENT Commented out
budget
* DONE [#A] Budget sent :work:
:PROPERTIES:
:owner: Ana
:END:
#+begin_src sh
echo "budget, draft v2"
#+end_src
* Travel
İstanbul, ΟΔΟΣ 5, 300 K
/usr/local, -cheap-
EOF
