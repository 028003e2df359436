printf '* TODO a\n' > 'b.org:3: y.org'
printf '1\n2\n* TODO z\n' > b.org
