printf '* TODO a\n:PROPERTIES:\n:Effort: 1:00\n:END:\n* b\n#+STARTUP: logdone\n' > a.org
