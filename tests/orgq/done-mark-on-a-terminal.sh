printf '* TODO a\342\200\256b\n' > a.org
