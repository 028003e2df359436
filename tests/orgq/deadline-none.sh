printf '* a\nDEADLINE: <2024-02-02 Fri>' > a.org
