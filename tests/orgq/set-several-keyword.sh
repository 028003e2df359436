printf '* TODO a\n#+TODO: TODO NEXT | DONE\n* c\n' > a.org
