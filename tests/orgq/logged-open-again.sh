printf '#+STARTUP: logdone\n* DONE a\n  CLOSED: [2024-02-27 Tue 18:00] SCHEDULED: <2024-02-26 Mon>\n' > a.org
