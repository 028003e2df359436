printf '* a\n** b\n*** c\nx\n** e\n' > a.org
