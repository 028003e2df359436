printf '* a\r\nb\r\n' > a.org
