printf '* a\n' > a.org
printf 'x\n* b\n' > body
exec < body
