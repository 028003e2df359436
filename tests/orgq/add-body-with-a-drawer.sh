printf '* a\n' > a.org
printf ':NOTE:\ntext\n:END:\n' > body
exec < body
