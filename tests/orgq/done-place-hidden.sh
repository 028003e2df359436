printf '* TODO COMMENT b :x:\n' > a.org
