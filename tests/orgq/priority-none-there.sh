printf '* TODO a\n' > a.org
