printf '* a\n* b\n' > a.org
