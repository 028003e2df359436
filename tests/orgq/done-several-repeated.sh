printf '* TODO a\nSCHEDULED: <2024-02-21 Wed +1w> DEADLINE: <2024-02-23 Fri +1w>\n* TODO b\nDEADLINE: <2024-04-01 Mon> SCHEDULED: <2024-02-28 Wed +1d>\n' > a.org
