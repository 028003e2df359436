printf '#+STARTUP: logreschedule\n* TODO a\nSCHEDULED: <2024-02-26 Mon 9:00 +1w>\nkept\n' > a.org
