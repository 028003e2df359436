mkdir my
printf '* a\n<2024-02-30>\n' > my/a.org
printf '* b\n<2024-02-31>\n' > my/b.org
ln -s a.org my/c.org
printf '<2024-02-30>\n' > my/d.txt
