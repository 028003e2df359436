printf '* a\nSCHEDULED: <2024-02-01 Thu>\nDEADLINE: <2024-02-02 Fri>\n' > a.org
