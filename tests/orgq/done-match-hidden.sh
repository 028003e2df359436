printf '* TODO COMMENT b :x:\n* TODO a :x:\n' > a.org
