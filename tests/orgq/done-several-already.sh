printf '* DONE a\n* DONE b\n' > a.org
