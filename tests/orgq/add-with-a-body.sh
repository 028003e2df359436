printf '* a\n' > a.org
printf 'Text,\nand more' > body
exec < body
