printf '* TODO DONE a\n' > a.org
