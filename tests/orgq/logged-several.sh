printf '#+TODO: TODO | DONE(!)\n* TODO a\n* TODO b\nkept\n' > a.org
