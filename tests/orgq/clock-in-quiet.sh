printf '* One\n* TODO Two\n  body\n' > a.org
