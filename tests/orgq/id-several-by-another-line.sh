printf '* TODO Call\nAnn\n* TODO Call\nAnn\n' > e.org
