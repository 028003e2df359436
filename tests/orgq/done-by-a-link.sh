printf '* TODO a\n' > a.org
ln -s a.org b.org
