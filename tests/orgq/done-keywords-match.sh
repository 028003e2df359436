printf '* WAIT a\n* TODO b\n' > a.org
