mkdir odd
printf '* TODO a\n' > odd/a.org
ln -s nowhere odd/b.org
