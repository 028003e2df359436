printf '* TODO a :x:y:\nb\n' > a.org
