printf '* TODO a\n' > a.org
head -c 69999991 /dev/zero >> a.org
