printf '* a :home:\nb\n* c\n* d :home:\n' > a.org
