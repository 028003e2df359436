printf '* a\nSCHEDULED: <2024-01-01 Mon> SCHEDULED: <2024-02-01 Thu>\n' > a.org
