printf '* TODO a\r\nkept\r\n' > a.org
