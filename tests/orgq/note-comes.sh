printf '* a\nb\n' > a.org
