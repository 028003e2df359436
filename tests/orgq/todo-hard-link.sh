printf '* TODO one\n' > a.org
ln a.org b.org
