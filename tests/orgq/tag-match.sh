printf '* TODO a\n* b\n' > a.org
