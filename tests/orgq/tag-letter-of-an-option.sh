printf '* a :q:\n' > a.org
