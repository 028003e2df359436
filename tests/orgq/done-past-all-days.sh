printf '* TODO a\nDEADLINE: <9999-12-31 Fri +1d>\n' > a.org
