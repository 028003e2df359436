printf '* a' > a.org
