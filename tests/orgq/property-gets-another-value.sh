printf '* a\n:PROPERTIES:\n:effort: 1:00\n:B: 2\n:END:\nb\n' > a.org
