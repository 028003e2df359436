printf '* TODO Old\n:PROPERTIES:\n:ID:  4f2a\n:END:\n' > i.org
sed s/Old/New/ i.org > j.org
