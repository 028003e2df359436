printf '* TODO a\n' > 'a	b.org'
