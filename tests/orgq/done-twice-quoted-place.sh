printf '* TODO a\n' > '"b.org:3: y"'
printf '* TODO z\n' > 'b.org:3: y'
