printf '* a\n:PROPERTIES:\n:A: 1\n:END:\nb\n' > a.org
