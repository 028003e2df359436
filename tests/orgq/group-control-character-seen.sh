printf '* TODO A\n:PROPERTIES:\n:CATEGORY: a\033[31mb\n:END:\n' > c.org
