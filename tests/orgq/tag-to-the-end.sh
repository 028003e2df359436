printf '* a :x:y:\n' > a.org
