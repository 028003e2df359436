printf '#+STARTUP: logreschedule\n* TODO a\n' > a.org
