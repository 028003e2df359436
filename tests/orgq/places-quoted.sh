printf '* TODO a\n' > 'b.org:3: y.org'
printf '* TODO b\n' > 'a: b.org'
