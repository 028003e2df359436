printf '* a\n' > 'b.org:3: y.org'
