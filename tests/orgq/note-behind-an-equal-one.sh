printf '#+STARTUP: logdrawer nologstatesreversed\n* a\n:LOGBOOK:\n- Note taken on [2024-02-27 Tue 09:00] \\\\\n  Called.\n:END:\nb\n' > a.org
