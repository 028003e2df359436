printf '* a\n' > a.org
printf ':PROPERTIES:\n:a: b\n:END:\n' > body
exec < body
