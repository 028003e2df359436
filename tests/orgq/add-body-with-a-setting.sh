printf '* a\n' > a.org
printf '#+TODO: X\n' > body
exec < body
