mkdir odd
printf '* TODO a\n' > odd/a.org
: > "$(printf 'odd/\377.txt')"
