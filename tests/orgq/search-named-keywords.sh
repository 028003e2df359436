printf '* TODO a\n* b' > plain.org
