printf '* a\n:PROPERTIES:\n:A: 1\n:B: 2\n:A+: 3\n:END:\n' > a.org
