printf '* TODO a\n' > a.org
printf left > .a.org.orgq
