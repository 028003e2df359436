printf '* a  :x:\n' > a.org
