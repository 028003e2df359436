printf '* a\nDEADLINE: <2024-02-02 Fri>\n' > a.org
