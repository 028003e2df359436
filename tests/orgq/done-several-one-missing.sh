printf '* TODO c\n' > b.org
