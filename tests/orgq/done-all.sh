printf '* TODO a :x:\n** TODO b\n* TODO c\n' > a.org
printf '* TODO d :x:\n' > b.org
