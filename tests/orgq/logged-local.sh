printf '#+STARTUP: logdone\n* TODO a\n:PROPERTIES:\n:LOGGING: nil\n:END:\n' > a.org
