cat > plan.org << 'END'
#+CATEGORY: plan
#+TODO: TODO NEXT WAIT | DONE
* TODO [#B] write report :office:pen:
DEADLINE: <2024-03-01 Fri> SCHEDULED: <2024-02-27 Tue>
:PROPERTIES:
:Effort: 1:00
:END:
* NEXT Ärger klären
SCHEDULED: <2024-02-28 Wed 14:00>
* WAIT [#A] Answer from Zoë :pen:
DEADLINE: <2024-02-20 Tue 09:00>
* TODO Änder den Plan
:PROPERTIES:
:Effort: 0:30
:END:
** TODO [#C] buy ink :shop:
DEADLINE: <2024-03-01 Fri 08:00>
END
cat > house.org << 'END'
* TODO [#A] Pay rent
DEADLINE: <2024-03-13 Wed> SCHEDULED: <2024-03-10 Sun>
:PROPERTIES:
:Effort: 0:05
:END:
* DONE call mum
CLOSED: [2024-02-27 Tue 18:00]
* DONE [#B] Old thing
CLOSED: [2024-02-26 Mon]
END
