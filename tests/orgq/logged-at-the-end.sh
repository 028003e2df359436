printf '* TODO a' > a.org
