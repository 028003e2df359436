printf '* TODO a\n' > a.org
chmod 640 a.org
