printf '* 漢字 é\n' > a.org
