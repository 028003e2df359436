printf '* TODO a\n* TODO b\n' > a.org
