printf '#+STARTUP: logdrawer\n* a\nb\n' > a.org
