printf '#+STARTUP: logdone\n* TODO a\n' > a.org
