rm -rf *
printf '* TODO a\n' > a.org
printf 'left' > .p.html.orgq
