printf '* a\nb\n:PROPERTIES:\n:A: 1\n:END:\n' > a.org
