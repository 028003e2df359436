umask 022
printf '* TODO a\n' > a.org
chmod 664 a.org
