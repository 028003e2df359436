printf '* a\nSCHEDULED: <2024-01-01 Mon> DEADLINE: <2024-02-02 Fri> SCHEDULED: <2024-02-01 Thu>  x\n' > a.org
