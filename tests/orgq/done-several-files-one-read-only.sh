printf '* TODO a\n* TODO b\n' > a.org
printf '* TODO c\n' > b.org
chmod 444 a.org
