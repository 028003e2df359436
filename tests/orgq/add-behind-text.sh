printf 'b\n' > a.org
