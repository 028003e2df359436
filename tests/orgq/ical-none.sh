printf '* TODO a\n' > none.org
