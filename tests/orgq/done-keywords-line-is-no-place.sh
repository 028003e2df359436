printf '* WAIT a\n' > a.org
