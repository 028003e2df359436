printf '* TODO a\n' > '"b".org'
printf '* TODO z\n' > b.org
