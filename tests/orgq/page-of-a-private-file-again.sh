umask 022
printf '* TODO a\n' > a.org
printf '* TODO b\n' > b.org
chmod 600 b.org
: > p.html
chmod 644 p.html
