printf '* TODO [#A] a\nb\n' > a.org
