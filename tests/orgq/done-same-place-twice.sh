printf '* TODO a\n* TODO b\n* TODO c\n' > a.org
