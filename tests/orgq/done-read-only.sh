printf '* TODO a\n' > a.org
chmod 444 a.org
