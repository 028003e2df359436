printf '* TODO a\033[31mb\n' > a.org
