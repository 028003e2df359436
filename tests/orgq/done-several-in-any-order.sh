printf '* TODO a\n* TODO b\n* TODO c\n' > a.org
printf '* TODO d\n' > b.org
