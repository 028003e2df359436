printf '* TODO a\r\nb\r\n' > a.org
