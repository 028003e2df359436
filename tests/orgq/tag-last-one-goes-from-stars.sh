printf '* :x:\n' > a.org
