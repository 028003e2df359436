printf '* a\n** b\n** c\n' > a.org
