printf '* a\n* b\n* c\n* d\n' > a.org
