printf '* WAIT a' > a.org
