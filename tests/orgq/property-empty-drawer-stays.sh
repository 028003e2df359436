printf '* a\n:PROPERTIES:\n:A: 1\n:END:\nDEADLINE: <2024-03-01 Fri>\n' > a.org
