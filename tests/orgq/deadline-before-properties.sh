printf '* a\n:PROPERTIES:\n:x: y\n:END:\n' > a.org
