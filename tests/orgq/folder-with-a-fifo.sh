mkdir odd odd/d.org
printf '* TODO a\n' > odd/a.org
printf '* TODO c\n' > c
ln -s ../c odd/c.org
mkfifo odd/p.org
