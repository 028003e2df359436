printf '* TODO [#A] a\n* [#B]\n' > a.org
