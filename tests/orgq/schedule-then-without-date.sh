printf '* a\nDEADLINE: <2024-03-01 Fri>\n' > a.org
