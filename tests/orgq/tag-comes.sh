printf '* TODO a\nb\n* c\n' > a.org
