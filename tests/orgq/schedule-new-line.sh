printf '* TODO a\nb\n' > a.org
