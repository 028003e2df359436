printf '* TODO a\n* DONE b\n' > a.org
