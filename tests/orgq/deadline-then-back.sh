printf '* a\nSCHEDULED: <2024-02-01 Thu> DEADLINE: <2024-03-01 Fri>\n* b\nDEADLINE: <2024-03-02 Sat>\n' > a.org
