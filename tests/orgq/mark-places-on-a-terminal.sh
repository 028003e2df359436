printf '* TODO a\n' > "$(printf 'm\342\200\256n.org')"
