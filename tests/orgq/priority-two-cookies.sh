printf '* [#A] [#B] a\n' > a.org
