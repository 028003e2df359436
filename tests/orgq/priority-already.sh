printf '* TODO [#A] a :x:\n' > a.org
