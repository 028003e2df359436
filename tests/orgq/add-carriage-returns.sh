printf '* a\r\n' > a.org
