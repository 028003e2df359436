printf '* TODO a\n' > small.org
(sleep 2; printf '* TODO b\n' >> small.org) &
