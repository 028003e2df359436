printf '* TODO a\nbudget\033[31m red\342\200\256\n' > seen.org
