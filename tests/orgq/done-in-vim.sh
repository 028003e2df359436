printf '* TODO a\n' > a.org
head -c 1008 /dev/zero | tr '\0' 'U' | sed 's/^UU/b0/' > .a.org.swp
