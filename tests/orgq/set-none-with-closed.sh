printf '#+STARTUP: logdone\n* DONE a\nCLOSED: [2024-02-27 Tue 18:00] DEADLINE: <2024-03-01 Fri>\n' > a.org
