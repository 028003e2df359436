printf '#+STARTUP: logdone\n* TODO a\nDEADLINE: <2024-03-01 Fri>\nkept\n' > a.org
