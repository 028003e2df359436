printf '* TODO a\n* TODO b\n' > 'b.org:3: y.org'
