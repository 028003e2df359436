printf '* DONE a\n' > a.org
