printf '* a\n:PROPERTIES:\n:A: 1\n:B: 2\n:END:\nb\n' > a.org
