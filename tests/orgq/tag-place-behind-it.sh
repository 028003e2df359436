printf '* a\n' > a.org
