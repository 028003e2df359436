printf '* COMMENT a\n' > a.org
