printf '* TODO Call\nAnn\n* WAIT Call\nBob\n' > e.org
