printf '* a\nDEADLINE: <2024-02-01 Thu +1m -2d>\n' > a.org
