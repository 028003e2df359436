printf '* TODO a\n' > a.org
ln a.org b.org
