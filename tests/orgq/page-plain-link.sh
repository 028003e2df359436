printf '* Note\n* TODO Pay\n' > 'a b.org'
