printf '* a\tb\n' > a.org
