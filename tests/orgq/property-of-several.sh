printf '* a\n* b\n:PROPERTIES:\n:A: 0\n:END:\n' > a.org
