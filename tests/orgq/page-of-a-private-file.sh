umask 022
printf '* TODO a\n' > a.org
chmod 600 a.org
