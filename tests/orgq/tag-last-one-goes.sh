printf '* TODO a  :x:\nb\n' > a.org
