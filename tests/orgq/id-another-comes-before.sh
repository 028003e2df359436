printf '* TODO Call\nZoe\n* TODO Call\nAnn\n' > e.org
