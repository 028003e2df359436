printf '* TODO a\nb\n' > a.org
printf '* TODO c\n' > b.org
