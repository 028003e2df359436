printf '* TODO [#A] a\n' > a.org
